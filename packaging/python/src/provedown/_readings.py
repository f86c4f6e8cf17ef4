"""What the package offers, on texts."""
from __future__ import annotations

import json
from typing import Any, Dict, Iterable, Iterator, List, NamedTuple, Optional, Sequence, Union

from ._library import SafeRules, bits_of, encoded, folding_of, of_safe_html, records_of, result_of, safe_html_by
from ._records import BrokenLink, Columns, Definition, Records, characters_of


class Event(NamedTuple):
    """An event of a text.

    `name` says what it is: `Start` and `End` of an element, `Text`, `Code`, `Html`, `SoftBreak` and others. `value` is what
    it holds, as in the lines of `events_json`: a text, the name of an element, or an object with one member, whose name
    is that of the element; None, where it holds nothing. It spans `text[start:end]`.
    """

    name: str
    value: Union[str, Dict[str, Any], None]
    start: int
    end: int


class Heading(NamedTuple):
    """A heading: its level, 1 to 6, its text without markup, and with `heading-ids` its id. It spans `text[start:end]`."""

    level: int
    text: str
    start: int
    end: int
    id: Optional[str] = None


def html(text: str, extensions: Iterable[str] = (), *, safe: bool = True, rules: Optional[SafeRules] = None) -> str:
    """Returns the HTML of a text.

    Safe HTML is for untrusted input: raw HTML is shown as text, and destinations have one of the schemes http,
    https, mailto and tel, those of images http or https, or none. `rules` say what else it is. With `safe=False` raw HTML
    and all destinations come through as the text's author wrote them, and there are no rules.
    """
    if rules is None:
        return result_of("safe_html" if safe else "html", encoded(text), extensions).decode()
    return safe_html_by(encoded(text), extensions, of_safe_html(rules, safe)).decode()


def events_json(text: str, extensions: Iterable[str] = ()) -> str:
    """Returns a line of JSON for each event. The ranges count the bytes of the text's UTF-8."""
    return result_of("json", encoded(text), extensions).decode()


def outline_json(text: str, extensions: Iterable[str] = ()) -> str:
    """Returns a line of JSON for each heading. The ranges count the bytes of the text's UTF-8."""
    return result_of("outline", encoded(text), extensions).decode()


def events(text: str, extensions: Iterable[str] = ()) -> Iterator[Event]:
    """Returns an iterator over the events of a text. The text is read at the call."""
    of_text = encoded(text)
    return _events(result_of("json", of_text, extensions), characters_of(of_text))


def outline(text: str, extensions: Iterable[str] = ()) -> List[Heading]:
    """Returns the headings of a text."""
    of_text = encoded(text)
    characters = characters_of(of_text)
    entries = map(json.loads, _lines(result_of("outline", of_text, extensions)))
    return [Heading(it["level"], it["text"], *_range(it["range"], characters), it.get("id")) for it in entries]


def records(text: str, extensions: Iterable[str] = ()) -> bytes:
    """Returns the events of a text in a compact binary form, which include/markdown_records.h describes and
    `typed.events_of_records` reads.
    """
    return records_of(encoded(text), bits_of(extensions))


def columns(text: str, extensions: Iterable[str] = ()) -> Columns:
    """Returns the events of a text as columns, without their texts, which is fast. An end has the kind of its start and
    `Kind.END`. The extensions `autolinks` and `heading-ids` change nothing here.
    """
    of_text = encoded(text)
    return Records(of_text, records_of(of_text, bits_of(extensions))).columns()


def broken(text: str, extensions: Iterable[str] = ()) -> List[BrokenLink]:
    """Returns the references that have no definition, of which the text would have links: `[a]`, `[a][]` and `[b][a]`."""
    of_text = encoded(text)
    return Records(of_text, records_of(of_text, bits_of(extensions))).broken_links()


def definitions(text: str, extensions: Iterable[str] = ()) -> List[Definition]:
    """Returns the reference definitions of a text: of those whose labels have one `fold`ing, the first."""
    of_text = encoded(text)
    return Records(of_text, records_of(of_text, bits_of(extensions))).definitions()


def fold(label: str) -> str:
    """Returns the case folding of a label: labels with the same folding name the same definition."""
    return folding_of(encoded(label)).decode()


def _events(lines: bytes, characters: Sequence[int]) -> Iterator[Event]:
    for line in _lines(lines):
        event, span = json.loads(line)
        name, value = (event, None) if isinstance(event, str) else next(iter(event.items()))
        yield Event(name, value, *_range(span, characters))


def _lines(lines: bytes) -> List[bytes]:
    return lines.split(b"\n")[:-1]


def _range(of_bytes: Dict[str, int], characters: Sequence[int]) -> "tuple[int, int]":
    return characters[of_bytes["start"]], characters[of_bytes["end"]]
