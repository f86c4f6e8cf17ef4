"""`python -m provedown`: HTML, events or an outline of files, as the program `markdown` writes them."""
from __future__ import annotations

import argparse
import os
import sys
from typing import List, Optional

from . import EXTENSIONS, MarkdownError, __version__, events_json, html, outline_json


def _parser() -> argparse.ArgumentParser:
    parser = argparse.ArgumentParser(prog="provedown", description="Turns Markdown into HTML, events or an outline.")
    parser.add_argument("files", nargs="*", metavar="FILE", default=["-"], help="what is read; - is standard input")
    parser.add_argument("-t", "--to", choices=["html", "events", "outline"], default="html", help="what is written")
    names = ", ".join(EXTENSIONS)
    parser.add_argument(
        "-e", "--extension", action="append", choices=[*EXTENSIONS], default=[], metavar="NAME", help=f"enables one of {names}"
    )
    parser.add_argument("--unsafe", action="store_true", help="keeps raw HTML and all destinations, for trusted texts")
    parser.add_argument("-V", "--version", action="version", version=f"%(prog)s {__version__}")
    return parser


def _read(name: str) -> str:
    if name == "-":
        return sys.stdin.buffer.read().decode("utf-8-sig")
    with open(name, "rb") as file:
        return file.read().decode("utf-8-sig")


def _written(text: str, asked: argparse.Namespace) -> str:
    if asked.to == "html":
        return html(text, asked.extension, safe=not asked.unsafe)
    return (events_json if asked.to == "events" else outline_json)(text, asked.extension)


def main(words: Optional[List[str]] = None) -> int:
    asked = _parser().parse_args(words)
    written = []
    for name in asked.files:
        try:
            written.append(_written(_read(name), asked))
        except UnicodeDecodeError as error:
            line = error.object.count(b"\n", 0, error.start) + 1
            return _fail(f"{name}:{line}: not UTF-8 at byte {error.start}")
        except MemoryError:
            return _fail(f"{name}: out of memory")
        except (OSError, MarkdownError) as error:
            return _fail(f"{name}: {error}")
    return _print("".join(written))


def _print(written: str) -> int:
    rest = memoryview(written.encode())
    try:
        # (an unbuffered write may write a part)
        while rest:
            rest = rest[sys.stdout.buffer.write(rest) :]
        sys.stdout.buffer.flush()
    except BrokenPipeError:
        # (Python flushes once more at its end, which would fail again)
        os.dup2(os.open(os.devnull, os.O_WRONLY), sys.stdout.fileno())
        return 1
    except OSError as error:
        return _fail(str(error))
    return 0


def _fail(message: str) -> int:
    print(f"provedown: {message}", file=sys.stderr)
    return 1


if __name__ == "__main__":
    sys.exit(main())
