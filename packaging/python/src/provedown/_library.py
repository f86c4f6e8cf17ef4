"""The calls of the shared object, which lies beside this file, on bytes. include/markdown.h says what they do."""
from __future__ import annotations

import ctypes
from pathlib import Path
from typing import Any, Dict, Iterable, List, Mapping, NamedTuple, Optional, Tuple

#: The names of the extensions, with their bits.
EXTENSIONS: Dict[str, int] = {
    "alerts": 1 << 11,
    "autolinks": 1 << 27,
    "footnotes": 1 << 2,
    "heading-attributes": 1 << 6,
    "heading-ids": 1 << 28,
    "math": 1 << 10,
    "old-footnotes": (1 << 9) | (1 << 2),
    "pluses": 1 << 8,
    "smart": 1 << 5,
    "strikethrough": 1 << 3,
    "subscript": 1 << 14,
    "superscript": 1 << 13,
    "tables": 1 << 1,
    "tasklists": 1 << 4,
    "wikilinks": 1 << 15,
    "yaml": 1 << 7,
}

#: The names of the extensions that GitHub has.
GITHUB: Tuple[str, ...] = ("alerts", "autolinks", "footnotes", "heading-ids", "strikethrough", "tables", "tasklists")

#: The names of all extensions but `old-footnotes`, which changes what footnotes are.
ALL: Tuple[str, ...] = tuple(name for name in EXTENSIONS if name != "old-footnotes")

# (another name of alerts)
EXTENSIONS["gfm"] = EXTENSIONS["alerts"]

_NO_MEMORY = -2
_TOO_DEEP = -3
_NOT_RECORDS = -5
_TOO_LONG = -6
_OVER_LIMIT = -7


class MarkdownError(ValueError):
    """A text cannot be converted. Memory that is refused is a `MemoryError` instead."""


class UnknownExtension(MarkdownError):
    """No extension has this name."""


class TooDeep(MarkdownError):
    """More than 2**64 - 1 events are open in one image."""


class BadRecords(MarkdownError):
    """The bytes are no records of this text."""


class TooLong(MarkdownError):
    """A text, or what its records hold, has 2**32 bytes or more."""


class OverLimit(MarkdownError):
    """The HTML has more bytes than the limit of its `SafeRules`."""


#: What becomes of images in safe HTML, with its bit.
_IMAGES: Dict[str, int] = {"shown": 0, "links": 1 << 0, "text": 1 << 1}

_NO_REL = 1 << 2

_MOST: int = ctypes.c_size_t(-1).value


class SafeRules(NamedTuple):
    """What a caller chooses of safe HTML.

    `prefix` follows `user-content-` in the ids of headings and footnotes, and in links to them: texts that stand on one page
    need prefixes of which none begins another, as `17-` and `18-`. `images` are `shown`, are `links` to what they would show,
    or are their alt `text` alone. With `rel` links to other sites have `rel="nofollow ugc noopener"`. So many tags as
    `nesting` says may stand in one another: what nests deeper loses its tags, and its text stays. HTML of more bytes of UTF-8
    than `limit` is an `OverLimit`.
    """

    prefix: str = ""
    images: str = "shown"
    rel: bool = True
    nesting: int = 128
    limit: Optional[int] = None


class _Rules(ctypes.Structure):
    _fields_ = [
        ("prefix", ctypes.c_char_p),
        ("prefix_length", ctypes.c_size_t),
        ("bits", ctypes.c_uint32),
        ("nesting", ctypes.c_size_t),
        ("limit", ctypes.c_size_t),
    ]


def _count(number: int, name: str) -> int:
    if isinstance(number, bool) or not isinstance(number, int):
        raise TypeError(f"{name} is an int, not {type(number).__name__}")
    if number < 0:
        raise MarkdownError(f"{name} is negative: {number}")
    return min(number, _MOST)


def of_safe_html(rules: SafeRules, safe: bool) -> SafeRules:
    """Returns the rules, which are for safe HTML alone."""
    if not safe:
        raise TypeError("rules are for safe HTML, not for safe=False")
    return rules


def _library_rules(rules: SafeRules) -> _Rules:
    """Returns the rules as the library takes them."""
    if rules.images not in _IMAGES:
        raise MarkdownError(f"images are {', '.join(_IMAGES)}, not {rules.images!r}")
    prefix = encoded(rules.prefix)
    bits = _IMAGES[rules.images] | (0 if rules.rel else _NO_REL)
    limit = _MOST if rules.limit is None else _count(rules.limit, "limit")
    return _Rules(prefix, len(prefix), bits, _count(rules.nesting, "nesting"), limit)


_library = ctypes.CDLL(str(Path(__file__).with_name("libprovedown.so")))
_library.markdown_free.argtypes = [ctypes.c_void_p]
_library.markdown_free.restype = None


def bits_of(extensions: Iterable[str]) -> int:
    """Returns the bits of the extensions with these names."""
    if isinstance(extensions, str):
        raise TypeError(f"extensions are an iterable of names, as [{extensions!r}]")
    if isinstance(extensions, Mapping):
        # (its keys are the names, so one that is set to false would be enabled)
        for name, value in extensions.items():
            if not value:
                raise TypeError(f"extensions are the names of those that are enabled: leave out {name!r}, which is {value!r}")
    bits = 0
    for name in extensions:
        if name not in EXTENSIONS:
            raise UnknownExtension(f"unknown extension {name!r}; there are {', '.join(EXTENSIONS)}")
        bits |= EXTENSIONS[name]
    return bits


def encoded(text: str) -> bytes:
    """Returns the text's UTF-8. A lone surrogate has none: `UnicodeEncodeError`, which is a `ValueError`."""
    if not isinstance(text, str):
        raise TypeError(f"the text is a str, not {type(text).__name__}")
    return text.encode()


# How bytes are passed.
_BYTES: List[Any] = [ctypes.c_char_p, ctypes.c_size_t]


def _called(call: str, types: List[Any], *arguments: Any) -> bytes:
    """Returns what a call that allocates gives: `call` is its name, as `html` for `markdown_html_alloc`."""
    allocating = getattr(_library, f"markdown_{call}_alloc")
    allocating.argtypes = [*types, ctypes.POINTER(ctypes.c_int64)]
    allocating.restype = ctypes.c_void_p
    length = ctypes.c_int64()
    result = allocating(*arguments, ctypes.byref(length))
    if result is not None:
        try:
            return ctypes.string_at(result, length.value)
        finally:
            _library.markdown_free(result)
    if length.value == _NO_MEMORY:
        raise MemoryError
    if length.value == _TOO_DEEP:
        raise TooDeep("an image is nested too deeply")
    if length.value == _NOT_RECORDS:
        raise BadRecords("the bytes are no records of this text")
    if length.value == _TOO_LONG:
        raise TooLong("a text, or what its records hold, has 4 GiB or more")
    if length.value == _OVER_LIMIT:
        raise OverLimit("the HTML has more bytes than its limit")
    raise MarkdownError(f"markdown_{call}_alloc returned status {length.value}")


def result_of(call: str, text: bytes, extensions: Iterable[str]) -> bytes:
    """Returns what a call that takes a text and options gives."""
    return _called(call, [*_BYTES, ctypes.c_uint32], text, len(text), bits_of(extensions))


def safe_html_by(text: bytes, extensions: Iterable[str], rules: SafeRules) -> bytes:
    """Returns the safe HTML of a text by rules."""
    types = [*_BYTES, ctypes.c_uint32, ctypes.POINTER(_Rules)]
    return _called("safe_html_by", types, text, len(text), bits_of(extensions), ctypes.byref(_library_rules(rules)))


def records_of(text: bytes, bits: int, answers: bytes = b"") -> bytes:
    """Returns the records of a text, whose questions get these answers, which are records too."""
    types = [*_BYTES, ctypes.c_uint32, *_BYTES]
    return _called("records", types, text, len(text), bits, answers, len(answers))


def html_of_records(text: bytes, records: bytes, safe: bool) -> bytes:
    """Returns the HTML of records of a text."""
    call = "records_safe_html" if safe else "records_html"
    return _called(call, [*_BYTES, *_BYTES, ctypes.c_uint32], text, len(text), records, len(records), 0)


def safe_html_of_records_by(text: bytes, records: bytes, rules: SafeRules) -> bytes:
    """Returns the safe HTML of records of a text by rules."""
    types = [*_BYTES, *_BYTES, ctypes.c_uint32, ctypes.POINTER(_Rules)]
    by = ctypes.byref(_library_rules(rules))
    return _called("records_safe_html_by", types, text, len(text), records, len(records), 0, by)


def folding_of(label: bytes) -> bytes:
    """Returns the case folding of a label."""
    return _called("fold", _BYTES, label, len(label))
