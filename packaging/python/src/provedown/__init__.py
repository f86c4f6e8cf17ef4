"""Markdown to HTML, to events and to an outline, by a parser that is proved to meet its contracts.

The module `typed` has events as values of types, and HTML of events.

It reads CommonMark 0.31.2, and the extensions that a call names (`EXTENSIONS`): those of GitHub are `GITHUB`, and `ALL`
are all of them. Texts are `str`, and ranges count their characters. The calls may be made from any number of threads, and
let the others run meanwhile.
"""
from . import typed
from ._kinds import Kind
from ._library import ALL, EXTENSIONS, GITHUB, BadRecords, MarkdownError, OverLimit, SafeRules, TooDeep, TooLong
from ._library import UnknownExtension
from ._readings import Event, Heading, broken, columns, definitions, events, events_json, fold, html, outline
from ._readings import outline_json, records
from ._records import BrokenLink, Columns, Definition

__version__ = "0.10.0"
__all__ = [
    "ALL",
    "BadRecords",
    "BrokenLink",
    "Columns",
    "Definition",
    "EXTENSIONS",
    "Event",
    "GITHUB",
    "Heading",
    "Kind",
    "MarkdownError",
    "OverLimit",
    "SafeRules",
    "TooDeep",
    "TooLong",
    "UnknownExtension",
    "broken",
    "columns",
    "definitions",
    "events",
    "events_json",
    "fold",
    "html",
    "outline",
    "outline_json",
    "records",
    "typed",
]
