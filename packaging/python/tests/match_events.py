"""Events by `match`, which Python has from 3.10 on: test_typed.py imports this there."""
from provedown.typed import Code, End, HardBreak, Heading, Image, ItemList, Link, Start, TaskListMarker, Text, events


def summary(text):
    """Yields what some of the events are."""
    for event in events(text, ["tasklists"]):
        match event:
            case Start(Heading(level=level)):
                yield f"h{level}"
            case End(Heading(level)):
                yield f"end of h{level}"
            case Start(Link("inline", url, title="f")):
                yield f"link {url}"
            case Start(Image()):
                yield "image"
            case Start(ItemList(None)):
                yield "list"
            case Start(ItemList(first)):
                yield f"list from {first}"
            case TaskListMarker(True):
                yield "done"
            case Code(code):
                yield f"code {code}"
            case HardBreak():
                yield "break"
            case Text(words):
                yield words
