"""A page without its data: what comes before them, and after. All pages have the same.

The program's own page has it too: `tools/page-template` makes its constants of it.
"""

from __future__ import annotations

import base64
import hashlib
import re
from pathlib import Path
from typing import Tuple

__all__ = ["framed"]

TEMPLATE = Path(__file__).resolve().with_name("template")

#: The parts of the style and of the script, in their order. The part of the script that reads the
#: data comes before them.
STYLES = ("page.css", "picture.css", "beside.css")
SCRIPTS = ("text.js", "picture.js", "failures.js", "celery.js", "happened.js", "player.js",
           "page.js")


def framed(reader: str) -> Tuple[str, str]:
    """What comes before the data, and after. `reader` is the part of the script that reads them.
    The page's policy lets only its style and its script in, by their digests."""
    style = "".join(map(_part, STYLES))
    parts = "".join(map(_part, (reader, *SCRIPTS)))
    script = f'\n"use strict";\n(() => {{{parts}}})();\n'
    given = {"style": style, "script": script, "data": "{{data}}",
             "hash of style": _hash(style), "hash of script": _hash(script)}
    page = re.sub(r"\{\{([a-z ]+)\}\}", lambda found: given[found[1]], _part("page.html"))
    head, _, tail = page.partition("{{data}}")
    return head, tail


def _part(name: str) -> str:
    return (TEMPLATE / name).read_text(encoding="utf-8")


def _hash(text: str) -> str:
    return f"sha256-{base64.b64encode(hashlib.sha256(text.encode()).digest()).decode()}"
