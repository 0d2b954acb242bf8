"""The OpenAPI document as a page to read, which fetches nothing of other sites."""

from __future__ import annotations

from html import escape

from .document import Schema

STYLE = """body{font:16px/1.5 sans-serif;max-width:56rem;margin:2rem auto;padding:0 1rem}
code{background:#eee;padding:0 .2em}table{border-collapse:collapse}
td,th{border:1px solid #bbb;padding:.2em .6em;text-align:left;vertical-align:top}"""


def page_of(document: Schema) -> str:
    info = document["info"]
    parts = [
        _operation(method, path, told)
        for path, methods in document["paths"].items()
        for method, told in methods.items()
    ]
    title = escape(info["title"])
    return (
        f'<!DOCTYPE html><html lang="en"><head><meta charset="utf-8"><title>{title}</title>'
        f"<style>{STYLE}</style></head><body><h1>{title}</h1><p>{escape(info['description'])} "
        f'The same for programs: <a href="openapi.json">openapi.json</a>.</p>{"".join(parts)}'
        "</body></html>\n"
    )


def _operation(method: str, path: str, told: Schema) -> str:
    token = " By a bearer token." if told.get("security") else ""
    members = told.get("requestBody", {}).get("content", {}).items()
    rows = [_row(one["name"], one) for one in told.get("parameters", [])]
    for media, content in members:
        named = content["schema"].get("properties", {})
        rows += [_row(f"{name} ({media})", {"schema": schema}) for name, schema in named.items()]
    table = f"<table><tr><th>Name<th>Is<th>Form</tr>{''.join(rows)}</table>" if rows else ""
    name = f"{method.upper()} {path}"
    return f"<h2><code>{escape(name)}</code></h2><p>{escape(told['summary'])}.{token}</p>{table}"


def _row(name: str, one: Schema) -> str:
    schema = one["schema"]
    form = ", ".join(f"{key} {_plain(it)}" for key, it in schema.items() if key != "items")
    due = " (wanted)" if one.get("required") else ""
    text = one.get("description", "")
    return f"<tr><td><code>{escape(name)}</code>{due}<td>{escape(text)}<td>{escape(form)}</tr>"


def _plain(value: object) -> str:
    return f"{value:g}" if isinstance(value, float) else str(value)
