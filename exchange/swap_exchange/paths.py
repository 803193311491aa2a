"""The service's page of all its paths, of its OpenAPI description. It needs no script, and nothing from
elsewhere."""
from __future__ import annotations

import json
from collections.abc import Iterator, Mapping
from html import escape
from typing import Any

STYLE = """body { font: 16px/1.5 system-ui, sans-serif; max-width: 60rem; margin: 0 auto; padding: 1rem; color: #1b1b1b; background: #fff }
h1 { font-size: 1.5rem } section { border-top: 1px solid #ccc; padding: .6rem 0 }
h2 { font: 600 1rem ui-monospace, monospace; margin: 0; overflow-wrap: anywhere } h2 b { display: inline-block; min-width: 4.5rem; color: #0b5394 }
p { margin: .2rem 0 } pre { margin: .3rem 0; padding: .5rem; background: #f2f2f2; white-space: pre-wrap; overflow-wrap: anywhere }
@media (prefers-color-scheme: dark) {
body { color: #e8e8e8; background: #161616 } pre { background: #262626 } h2 b, a { color: #8ab4f8 } section { border-color: #444 } }
"""
HEAD = """<!doctype html>
<html lang="en"><meta charset="utf-8"><meta name="viewport" content="width=device-width">
<meta http-equiv="Content-Security-Policy" content="default-src 'none'; style-src 'unsafe-inline'">
<title>{title}</title><style>{style}</style>
<h1>{title} {version}</h1><p>{about} Each path but /v1/health and /metrics wants the header
<code>Authorization: Bearer TOKEN</code>. The description for programs is <a href="/openapi.json">openapi.json</a>.</p>
"""


def page_of(api: Mapping[str, Any]) -> str:
    info = api["info"]
    head = HEAD.format(title=escape(info["title"]), version=escape(info["version"]), about=escape(info["description"]), style=STYLE)
    return head + "".join(section(path, method, it) for path, methods in api["paths"].items() for method, it in methods.items())


def section(path: str, method: str, it: Mapping[str, Any]) -> str:
    text = f"<section><h2><b>{method.upper()}</b> {escape(path)}</h2><p>{escape(it['summary'])}.</p>"
    return text + "".join(f"<pre>{escape(example)}</pre>" for example in examples(it)) + "</section>\n"


def examples(it: Mapping[str, Any]) -> Iterator[str]:
    for kind, told in it.get("requestBody", {}).get("content", {}).items():
        example = told.get("example", "")
        yield example if kind == "text/plain" else json.dumps(example)
