"""links.py FILE..: prints the links and images of Markdown files, each with its file and line, and those that are broken."""
import sys
from pathlib import Path

import provedown
from provedown.typed import Image, Link, Start, events


def links(text):
    """Yields each link with the offset at which it begins."""
    for event in events(text, provedown.GITHUB):
        if isinstance(event, Start) and isinstance(event.tag, (Link, Image)):
            yield event.start, event.tag.dest_url
    for link in provedown.broken(text, provedown.GITHUB):
        yield link.start, f"[{link.label}] is not defined"


for name in sys.argv[1:]:
    text = Path(name).read_text(encoding="utf-8")
    for start, url in sorted(links(text)):
        print(f"{name}:{text.count(chr(10), 0, start) + 1}: {url}")
