"""Renders the texts of a folder by the package provedown, and compares the results with what is stored beside them.

    callers.py FOLDER NAME ..
"""
import json
import sys
from pathlib import Path

import provedown

EXTENSIONS = ["strikethrough"]


def of_stored(line, encoded):
    """A stored event or heading, with its range in characters."""
    what, span = (line, line.pop("range")) if isinstance(line, dict) else line
    return what, *(len(encoded[: span[end]].decode()) for end in ("start", "end"))


def try_text(folder, name):
    kinds = ("md", "html", "safe", "jsonl", "outline")
    text, html, safe, lines, headings = ((folder / f"{name}.{kind}").read_bytes().decode() for kind in kinds)
    assert provedown.html(text, EXTENSIONS, safe=False) == html, name
    assert provedown.html(text, EXTENSIONS) == safe, name
    assert provedown.events_json(text, EXTENSIONS) == lines, name
    assert provedown.outline_json(text, EXTENSIONS) == headings, name

    stored = [of_stored(json.loads(it), text.encode()) for it in lines.splitlines()]
    events = [it for it in provedown.events(text, EXTENSIONS)]
    assert [(it.name if it.value is None else {it.name: it.value}, it.start, it.end) for it in events] == stored, name
    stored = [of_stored(json.loads(it), text.encode()) for it in headings.splitlines()]
    outline = provedown.outline(text, EXTENSIONS)
    assert [({"level": it.level, "text": it.text}, it.start, it.end) for it in outline] == stored, name


def main(folder, *names):
    for name in names:
        try_text(Path(folder), name)
    print(f"Python: {len(names)} texts, as stored")


if __name__ == "__main__":
    main(*sys.argv[1:])
