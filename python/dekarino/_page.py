"""The page of `view` and `serve` as one text that contains its style, its script and its data."""
import base64
import hashlib
import html
import json
import re
from typing import Any, Dict

from ._library import FOLDER

WEB = FOLDER / "web"
SCRIPTS = ["read.js", "chart.js", "list.js", "module.js", "detail.js", "edit.js", "main.js"]


def _text(name: str) -> str:
    return (WEB / name).read_text(encoding="utf-8")


def _source(content: str) -> str:
    digest = hashlib.sha256(content.encode()).digest()
    return f"'sha256-{base64.b64encode(digest).decode()}'"


def policy(style: str, script: str, may_ask: bool) -> str:
    """What the browser lets the page do: its own style and script, and, if it is live, requests to its own server."""
    asks = "'self'" if may_ask else "'none'"
    return (f"default-src 'none'; script-src {_source(script)}; style-src {_source(style)}; connect-src {asks}; "
            "img-src data:; base-uri 'none'; form-action 'none'")


def escaped(data: Dict[str, Any]) -> str:
    """JSON in which nothing can end a script or begin a comment: ASCII without these three characters."""
    text = json.dumps(data, separators=(",", ":"))
    return re.sub("[<>&]", lambda found: f"\\u{ord(found[0]):04x}", text)


def page(title: str, data: Dict[str, Any]) -> bytes:
    """The page with the data."""
    style, script = _text("page.css"), "\n".join(map(_text, SCRIPTS))
    parts = {"POLICY": html.escape(policy(style, script, bool(data.get("live")))), "TITLE": html.escape(title),
             "STYLE": style, "SCRIPT": script, "DATA": escaped(data)}
    text = re.sub("@(POLICY|TITLE|STYLE|SCRIPT|DATA)@", lambda found: parts[found[1]], _text("page.html"))
    return text.encode(errors="replace")
