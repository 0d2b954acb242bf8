// What all parts of the page use: its map, its elements, how it asks the server.
import {has, number, say} from "./texts.js";

export const byId = (id) => document.getElementById(id);
export const map = L.map("map", {zoomSnap: 0.25, maxZoom: 19});
for (const [name, level] of [["marks", 390], ["drafts", 420], ["names", 450], ["badges", 610]]) map.createPane(name).style.zIndex = level;
map.getPane("names").style.pointerEvents = "none";

export class PageError extends Error {
  constructor(told) {
    super(told.code && has(told.code) ? say(told.code, told.values) : told.error ?? told.detail);
    this.told = told;
  }
}

export async function fetchJson(path, options) {
  const reply = await fetch(path, options);
  const told = await reply.json().catch(() => ({error: reply.statusText}));
  if (!reply.ok) throw new PageError(told);
  return told;
}

// The token by which one may close roads, where the page is served to many; it is kept as long as the window.
export const token = {
  get: () => sessionStorage.getItem("token") || "",
  set: (text) => sessionStorage.setItem("token", text),
};

export function post(path, body) {
  const headers = {"Content-Type": "application/json"};
  if (token.get()) headers.Authorization = `Bearer ${token.get()}`;
  return fetchJson(path, {method: "POST", headers, body: JSON.stringify(body)});
}

export function tell(text, isError = false) {
  byId("status").textContent = text;
  byId("status").classList.toggle("error", isError);
}

export async function guarded(work) {
  try { await work(); } catch (fault) { tell(fault.message, true); }
}

export const labelOf = (criterion) => (has(criterion.name) ? say(criterion.name) : criterion.label);

export function shown(criterion, weight, digits = criterion.digits) {
  return `${number(weight / criterion.scale, digits)} ${criterion.unit}`.trim();
}

export function element(name, attributes = {}, text = "") {
  const made = document.createElement(name);
  for (const [key, value] of Object.entries(attributes)) made.setAttribute(key, value);
  if (text) made.textContent = text;
  return made;
}
