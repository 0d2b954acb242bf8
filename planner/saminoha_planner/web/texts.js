// The page's words, English and German, by the browser's language.

const ENGLISH = {
  from: "From", to: "To", choose_hint: "a place, “place, street”, or click on the map",
  show: "Show alternatives", turn: "Turn round", print: "Print", export: "Export as GeoJSON",
  choose: "Choose two places: by name, or by two clicks on the map.",
  from_set: ({name, far}) => `From ${name}${far}. Choose where to go.`,
  snapped: ({metres}) => ` (nearest junction, ${metres} m away)`,
  roads_around: ({names}) => `Routes around ${names}`,
  trip: ({from, to}) => `${from} – ${to}`,
  searching: "Searching all trade-offs …",
  searching_long: ({seconds, slow}) => `Searching all trade-offs: ${seconds} s so far.${slow}`,
  slow_program: " The program is the unproved one, which is slow.",
  starting: ({seconds}) => `The program reads the network: ${seconds} s so far. Ends can be chosen meanwhile.`,
  no_way: "No way leads there.",
  found: ({count, within, few}) =>
    `${count} trade-off${count === 1 ? "" : "s"}, ${within === count ? "" : `${within} within the limits, `}${few} shown.`,
  alternatives: "Alternatives", why: "why", via: "via", limits: "Limits", no_limit: "no limit",
  alike: ({count}) => `and ${count} alike`,
  compared: ({letter}) => `Differences are to ${letter}. Choose a letter again to let it go.`,
  choose_letter: "Choose a letter: the others are dimmed, and differences to it are shown.",
  epsilon: "Leave out what differs by less than", epsilon_none: "nothing",
  across: "Across", up: "Up", plot: "Costs of all alternatives against each other",
  distance: "distance", time: "time", houses: "along houses", junctions: "junctions", climb: "climb", toll: "toll",
  least: ({label}) => `least ${label}`, compromise: "compromise", "other roads": "other roads",
  as_of: ({time, count}) => `As of ${time}, ${count === 0 ? "no closures" : count === 1 ? "1 closure" : `${count} closures`}.`,
  unknown_changes: ({count}) =>
    ` ${count === 1 ? "One change was" : `${count} changes were`} published elsewhere that no list names.`,
  out_of_touch: "The server doesn't answer now.",
  proved: "The program that answers is the proved one.",
  unproved: "UNPROVED: the program that answers isn't the proved one.",
  proof_unknown: "Whether the program that answers is the proved one isn't known here.",
  promise: "What the proved program promises: these are all the trade-offs of these weights, none is missing, " +
    "and none can be bettered in one criterion without losing in another. " +
    "What a road weighs, and which few are shown, isn't proved.",
  closures: "Closures", close_road: "Close a road", none_closed: "Nothing is closed or changed.",
  by_click: "a click on the map chooses the road", by_two: "two clicks choose a stretch between them",
  by_name: "or the whole road, by name", preview: "Preview", cancel: "Cancel", close: "Close it", undo: "Undo",
  measure: "Measure", shut: "closed", slow: ({factor}) => `${factor} times slower`,
  changed: ({what}) => what, surcharge: ({what}) => `surcharge ${what}`,
  reason: "Reason", author: "Author", since: "From", until: "To", now: "at once", open_end: "until undone",
  preview_told: ({title, arcs, km, parts}) =>
    `${title}: ${arcs} arcs, ${km} km${parts > 1 ? ` in ${parts} separate parts` : ""}.`,
  between: ({from, to}) => `from ${from} to ${to}`, whole_road: "the whole road", nameless: "a road without a name",
  arcs: ({arcs}) => (arcs === 1 ? "1 arc" : `${arcs} arcs`),
  first_click: "Click where the stretch begins.", second_click: "Click where the stretch ends.",
  click_road: "Click on the road.",
  is_closed: ({road}) => `${road} is closed.`, is_planned: ({road}) => `The closure of ${road} is planned.`,
  is_undone: ({road}) => `The closure of ${road} is undone.`,
  planned: "planned", active: "now", ended: "over", no_author: "unknown author",
  someone: "The roads have changed, and the alternatives with them.",
  show_on_map: "Show on the map",
  refused_budget: ({budget}) => `Refused: the search needs more than ${budget} million labels, which is its budget.`,
  offer_budget: ({budget, memory}) => `Search with ${budget} million labels (up to about ${memory} GB of memory)`,
  offer_criteria: ({criteria}) => `Weigh ${criteria} alone`,
  offer_limits: "Set limits, so that fewer routes count", offer_coarser: "Weigh in coarser units",
  coarser_told: " Weights were rounded to coarser units.",
  far: ({km}) => `No junction is near: the nearest is ${km} km away.`,
  unknown: ({asked, like}) => `There is no place or street “${asked}”.${like.length ? ` Did you mean ${like.join(" or ")}?` : ""}`,
  empty: "Name a place or a street, or click on the map.",
  no_road: "There is no road of this name.", no_road_here: "No road is near.",
  no_stretch: "No road leads from the first to the second.",
  token: "Your token, to close roads", no_token: "Roads are closed and opened by token: this one isn't known.",
  no_operator: "No operator's address was given, so nothing can be closed from here.",
  bad_times: "It would end before it begins.",
  printed: ({time}) => `Printed ${time}`, weighted: ({criteria}) => `Weighed: ${criteria}`,
  map: "Map", side: "Query and alternatives", legend_closed: "closed or changed",
};

const LEAST = {distance: "kürzeste Strecke", time: "kürzeste Fahrzeit", houses: "am wenigsten an Häusern",
  junctions: "wenigste Kreuzungen", climb: "geringster Anstieg", toll: "geringste Maut"};

const GERMAN = {
  from: "Von", to: "Nach", choose_hint: "ein Ort, „Ort, Straße“ oder ein Klick auf die Karte",
  show: "Alternativen zeigen", turn: "Umkehren", print: "Drucken", export: "Als GeoJSON ausgeben",
  choose: "Wählen Sie zwei Orte: nach Namen oder mit zwei Klicks auf die Karte.",
  from_set: ({name, far}) => `Von ${name}${far}. Wählen Sie das Ziel.`,
  snapped: ({metres}) => ` (nächste Kreuzung, ${metres} m entfernt)`,
  roads_around: ({names}) => `Wege um ${names}`,
  trip: ({from, to}) => `${from} – ${to}`,
  searching: "Alle Abwägungen werden gesucht …",
  searching_long: ({seconds, slow}) => `Alle Abwägungen werden gesucht: bisher ${seconds} s.${slow}`,
  slow_program: " Das Programm ist das unbewiesene, das langsam ist.",
  starting: ({seconds}) => `Das Programm liest das Netz: bisher ${seconds} s. Die Enden können schon gewählt werden.`,
  no_way: "Dorthin führt kein Weg.",
  found: ({count, within, few}) =>
    `${count} Abwägung${count === 1 ? "" : "en"}, ${within === count ? "" : `${within} innerhalb der Grenzen, `}${few} gezeigt.`,
  alternatives: "Alternativen", why: "warum", via: "über", limits: "Grenzen", no_limit: "keine Grenze",
  alike: ({count}) => `und ${count} ähnliche`,
  compared: ({letter}) => `Unterschiede zu ${letter}. Derselbe Buchstabe noch einmal hebt die Wahl auf.`,
  choose_letter: "Wählen Sie einen Buchstaben: die anderen werden blass, und Unterschiede zu ihm stehen dabei.",
  epsilon: "Weglassen, was sich um weniger unterscheidet als", epsilon_none: "nichts",
  across: "Waagrecht", up: "Senkrecht", plot: "Kosten aller Alternativen gegeneinander",
  distance: "Strecke", time: "Fahrzeit", houses: "an Häusern", junctions: "Kreuzungen", climb: "Anstieg", toll: "Maut",
  least: ({name, label}) => LEAST[name] || `am wenigsten ${label}`, compromise: "Mittelweg", "other roads": "andere Straßen",
  as_of: ({time, count}) => `Stand ${time}, ${count === 0 ? "keine Sperrung" : count === 1 ? "1 Sperrung" : `${count} Sperrungen`}.`,
  unknown_changes: ({count}) =>
    ` ${count === 1 ? "Eine Änderung wurde" : `${count} Änderungen wurden`} anderswo veröffentlicht, die keine Liste nennt.`,
  out_of_touch: "Der Server antwortet gerade nicht.",
  proved: "Das Programm, das antwortet, ist das bewiesene.",
  unproved: "UNBEWIESEN: Das Programm, das antwortet, ist nicht das bewiesene.",
  proof_unknown: "Ob das Programm, das antwortet, das bewiesene ist, weiß man hier nicht.",
  promise: "Was das bewiesene Programm verspricht: Das sind alle Abwägungen dieser Gewichte, keine fehlt, " +
    "und keine lässt sich in einem Kriterium verbessern, ohne in einem anderen zu verlieren. " +
    "Was eine Straße wiegt und welche wenigen gezeigt werden, ist nicht bewiesen.",
  closures: "Sperrungen", close_road: "Eine Straße sperren", none_closed: "Nichts ist gesperrt oder geändert.",
  by_click: "ein Klick auf die Karte wählt die Straße", by_two: "zwei Klicks wählen das Stück dazwischen",
  by_name: "oder die ganze Straße, nach Namen", preview: "Vorschau", cancel: "Abbrechen", close: "Sperren", undo: "Aufheben",
  measure: "Maßnahme", shut: "gesperrt", slow: ({factor}) => `${factor}-mal langsamer`,
  changed: ({what}) => what, surcharge: ({what}) => `Zuschlag ${what}`,
  reason: "Grund", author: "Wer", since: "Ab", until: "Bis", now: "sofort", open_end: "bis zur Aufhebung",
  preview_told: ({title, arcs, km, parts}) =>
    `${title}: ${arcs} Bögen, ${km} km${parts > 1 ? ` in ${parts} getrennten Teilen` : ""}.`,
  between: ({from, to}) => `von ${from} bis ${to}`, whole_road: "die ganze Straße", nameless: "eine Straße ohne Namen",
  arcs: ({arcs}) => (arcs === 1 ? "1 Bogen" : `${arcs} Bögen`),
  first_click: "Klicken Sie, wo das Stück beginnt.", second_click: "Klicken Sie, wo das Stück endet.",
  click_road: "Klicken Sie auf die Straße.",
  is_closed: ({road}) => `${road} ist gesperrt.`, is_planned: ({road}) => `Die Sperrung von ${road} ist geplant.`,
  is_undone: ({road}) => `Die Sperrung von ${road} ist aufgehoben.`,
  planned: "geplant", active: "jetzt", ended: "vorbei", no_author: "unbekannt",
  someone: "Die Straßen haben sich geändert und mit ihnen die Alternativen.",
  show_on_map: "Auf der Karte zeigen",
  refused_budget: ({budget}) => `Abgelehnt: Die Suche braucht mehr als ${budget} Millionen Marken, ihr Budget.`,
  offer_budget: ({budget, memory}) => `Mit ${budget} Millionen Marken suchen (bis etwa ${memory} GB Speicher)`,
  offer_criteria: ({criteria}) => `Nur ${criteria} abwägen`,
  offer_limits: "Grenzen setzen, damit weniger Wege zählen", offer_coarser: "In gröberen Einheiten wägen",
  coarser_told: " Die Gewichte wurden auf gröbere Einheiten gerundet.",
  far: ({km}) => `Keine Kreuzung ist in der Nähe: die nächste ist ${km} km entfernt.`,
  unknown: ({asked, like}) => `Es gibt weder Ort noch Straße „${asked}“.${like.length ? ` Meinten Sie ${like.join(" oder ")}?` : ""}`,
  empty: "Nennen Sie einen Ort oder eine Straße, oder klicken Sie auf die Karte.",
  no_road: "Es gibt keine Straße dieses Namens.", no_road_here: "Keine Straße ist in der Nähe.",
  no_stretch: "Vom ersten führt keine Straße zum zweiten.",
  token: "Ihr Schlüssel zum Sperren", no_token: "Straßen werden mit einem Schlüssel gesperrt: dieser ist nicht bekannt.",
  no_operator: "Es wurde keine Adresse zum Sperren angegeben, daher kann hier nichts gesperrt werden.",
  bad_times: "Es würde enden, bevor es beginnt.",
  printed: ({time}) => `Gedruckt ${time}`, weighted: ({criteria}) => `Gewogen: ${criteria}`,
  map: "Karte", side: "Frage und Alternativen", legend_closed: "gesperrt oder geändert",
};

const asked = new URLSearchParams(location.search).get("lang") || navigator.language || "en";
export const language = asked.toLowerCase().startsWith("de") ? "de" : "en";
const tag = language === "de" ? asked : "en-GB";  // of several Germans, the browser's writes numbers
const TEXTS = language === "de" ? GERMAN : ENGLISH;

// The words of a key, or the key's English where a language lacks it.
export function say(key, values = {}) {
  const text = TEXTS[key] ?? ENGLISH[key] ?? key;
  return typeof text === "function" ? text(values) : text;
}

export const has = (key) => key in ENGLISH;

export function number(value, digits) {
  return value.toLocaleString(tag,
    {minimumFractionDigits: digits, maximumFractionDigits: digits, useGrouping: false});
}

export function clock(date, withDay = false) {
  const shape = withDay ? {dateStyle: "medium", timeStyle: "short"} : {timeStyle: "short"};
  return date.toLocaleString(tag, shape);
}

// Elements of the document that wait for their words.
export function fillTexts() {
  document.documentElement.lang = language;
  for (const one of document.querySelectorAll("[data-text]")) one.textContent = say(one.dataset.text);
  for (const one of document.querySelectorAll("[data-hint]")) one.placeholder = say(one.dataset.hint);
  for (const one of document.querySelectorAll("[data-label]")) one.setAttribute("aria-label", say(one.dataset.label));
}
