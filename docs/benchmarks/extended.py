"""Random documents of tables, task lists and footnotes by the full reading, `cmark-gfm` and `pulldown-cmark` 0.9.2:
`extended.py (--program COMMAND [--each FORM] | --library FILE) [--extensions NAME..] [--peers NAME..] [--count N] [--seed SEED]
[--files FILE..]`. With files, their texts take the place of random documents.

Ours is a command, to which the word of each extension is added in the form of `--each` (`{}` by default, `-e {}` for the
tool), or the C library as a shared object, which is called for the full reading. The peers are Debian's packages. The
extensions are of `tables tasklists footnotes strikethrough`, all but the last by default; for `pulldown-cmark` footnotes
are those of the old style, which it has.

What the programs write otherwise everywhere is made the same: line endings beside tags, spaces at the end of lines, a task's
box, which `cmark-gfm` has before the paragraph of a loose item, an empty body of a table, and of `cmark-gfm` where footnotes stand. A document on which two programs still differ is made small by deletion,
and then it is one of the differences below (`KNOWN`, each a pattern with what it shows), or it is printed. The last lines
say how many of each were found, and the exit status is 1 where a difference is not listed.
"""
import argparse
import collections
import ctypes
import random
import re
import shlex
import sys
from pathlib import Path
from urllib.parse import unquote

sys.dont_write_bytecode = True
import random_blocks
from random_blocks import html_of, inside, same_written, small

# the bits of the C library
BITS = {"tables": 1 << 1, "footnotes": 1 << 2, "strikethrough": 1 << 3, "tasklists": 1 << 4, "old-footnotes": (1 << 9) | (1 << 2)}
CMARK = {"tables": "table", "footnotes": "footnotes", "strikethrough": "strikethrough", "tasklists": "tasklist"}
PULLDOWN = {"tables": "-T", "footnotes": "-F", "strikethrough": "-S", "tasklists": "-L"}

CELLS = ["a", "b", "c d", "", " ", "`e`", "`f\\|g`", "\\|", "*h*", "[i](j)", "\\", "<b>", "![k](l)", "-", ":-"]
DELIMITERS = ["-", "---", ":-", "-:", ":-:", ":--", " --- ", "- -", "::", "a"]
TASKS = ["[ ] a", "[x] b", "[X] c", "[ ]", "[]", "[x]d", "[ ]  e", "[x]\tf", "[ ] [x] g", "\\[ ] h"]
NAMES = ["[^a]", "[^b]", "[^c]", "[^ä]"]
MARKERS = ["- ", "* ", "+ ", "1. ", "2) ", "-   "]
PIECES = ["", "", " ", "|", "||", "-", ":", "\n", "> ", "- ", "  ", "[", "]", "`", "\\", "[^a]"]


def row(rng, cells):
    """A line of some cells, with or without the outer pipes."""
    count = max(1, cells + rng.choice((0, 0, 0, 0, 0, -1, 1)))
    line = rng.choice(("|", " | ")).join(rng.choice(CELLS) for _ in range(count))
    return rng.choice(("|", "| ", "")) + line + rng.choice(("|", " |", ""))


def delimiter_row(rng, cells):
    """A line of some delimiters, of which most are well formed."""
    count = max(1, cells + rng.choice((0, 0, 0, 0, 0, 0, -1, 1)))
    pool = DELIMITERS[:7] if rng.random() < 0.9 else DELIMITERS
    line = rng.choice(("|", " | ")).join(rng.choice(pool) for _ in range(count))
    return rng.choice(("|", "| ", "")) + line + rng.choice(("|", " |", ""))


def table(rng):
    """The lines of a table, or of what looks like one."""
    cells = rng.randint(1, 3)
    before = rng.choice(([], [], [], ["a"], ["a", "b"], ["[a]: b"]))
    return [*before, row(rng, cells), delimiter_row(rng, cells), *(row(rng, cells) for _ in range(rng.randint(0, 3)))]


def tasks(rng, depth):
    """The lines of a list with task markers."""
    lines = []
    marker = rng.choice(MARKERS)
    for _ in range(rng.randint(1, 3)):
        below = blocks(rng, depth - 1) if depth > 0 and rng.random() < 0.3 else []
        lines += inside(rng, marker, [rng.choice(TASKS), *below]) + rng.choice(([], [], [""]))
    return lines


def note(rng, depth):
    """The lines of a footnote definition."""
    lines = blocks(rng, depth - 1) if depth > 0 and rng.random() < 0.4 else ["a " + rng.choice(NAMES)]
    return [rng.choice(NAMES) + ": " + lines[0], *("    " + line if line else line for line in lines[1:]), ""]


def text(rng):
    """The lines of a paragraph."""
    parts = ("a", "b", "c ", "*d*", "`e`", "|", "~~f~~", *NAMES)
    return ["".join(rng.choice(parts) for _ in range(rng.randint(1, 5))).strip() or "a" for _ in range(rng.choice((1, 1, 2)))]


def blocks(rng, depth):
    """The lines of some blocks beside each other."""
    lines = []
    for _ in range(rng.choice((1, 1, 2, 2, 3))):
        kind = rng.randrange(10)
        if kind < 4:
            found = table(rng)
        elif kind < 6:
            found = tasks(rng, depth)
        elif kind == 6:
            found = note(rng, depth)
        elif kind == 7 and depth > 0:
            found = ["> " + line for line in blocks(rng, depth - 1)]
        elif kind == 8:
            found = random_blocks.leaf(rng)
        else:
            found = text(rng)
        lines += found + rng.choice(([], [""], [""], [""]))
    return lines


def document(rng):
    lines = "\n".join(blocks(rng, rng.randint(0, 2)))
    for _ in range(rng.choice((0, 0, 0, 1, 2))):
        at = rng.randint(0, len(lines))
        lines = lines[:at] + rng.choice(PIECES) + lines[at + rng.randint(0, 1):]
    return lines + rng.choice(("\n", "\n", ""))


# ------------------------------------------------------------------------------------------------ the same form
BOX = re.compile(r"<input ([^>]*?)/?>\s*")
REFERENCE = re.compile(r'<sup class="footnote-ref(?:erence)?"><a href="#(?:fn-)?([^"]*)"[^>]*>\d+</a></sup>')
DEFINITION = re.compile(r'\s*<div class="footnote-definition" id="([^"]*)"><sup class="footnote-definition-label">\d+</sup>'
                        r'((?:(?!<div class="footnote-definition").)*?)</div>\s*', re.S)
SECTION = re.compile(r'\s*<section class="footnotes" data-footnotes>\s*<ol>(.*)</ol>\s*</section>\s*', re.S)
BACK = re.compile(r'\s*<a href="#fnref-[^>]*>↩(?:<sup[^>]*>[^<]*</sup>)?</a>')


def same_form(html):
    """HTML in which boxes and tables are written alike, and what `same_written` makes the same."""
    html = re.sub(r"[ \t]+\n", "\n", BOX.sub(lambda box: "[x] " if "checked" in box[1] else "[ ] ", html))
    html = same_written(re.sub(r"<tbody>\s*</tbody>", "", html))
    html = re.sub(r"<li>(\[[ x]\] )\s*<p>", r"<li><p>\1", html)
    return re.sub(r"[ \t]+(?=\n|</|$)", "", html)


def notes_apart(html):
    """HTML without its footnote definitions and with references by name, and the definitions by name."""
    notes = {}
    html = REFERENCE.sub(lambda found: f"[^{unquote(found[1])}]", html)
    section = SECTION.search(html)
    if section:
        html = html[:section.start()] + "\n" + html[section.end():]
        for item in section[1].split('<li id="fn-')[1:]:
            name, _, content = item.partition('">')
            notes[unquote(name)] = same_form(BACK.sub("", content.rsplit("</li>", 1)[0]))
    while found := DEFINITION.search(html):
        notes.setdefault(unquote(found[1]), same_form(found[2]))
        html = html[:found.start()] + "\n" + html[found.end():]
    return same_form(html), notes


def both_forms(ours, theirs, has_section):
    """The HTML of both, written alike; footnotes that `cmark-gfm` leaves out, since nothing refers to them, are dropped."""
    if not has_section:
        return same_form(ours), same_form(theirs)
    (ours, noted), (theirs, listed) = notes_apart(ours), notes_apart(theirs)
    names = sorted(listed)
    return "\n".join([ours, *(f"[^{n}]: {noted.get(n)}" for n in names)]), "\n".join([theirs, *(f"[^{n}]: {listed[n]}" for n in names)])


# ------------------------------------------------------------------------------------------------ what is known
BEFORE = r"(?:^|\n)(?:[ \t>]|[-+*][ \t]|\d+[.)][ \t]|\[\^[^\]\n]+\]:)*"
DELIMITER_ROW = r"[ \t>]*[|:-][|: \t-]*(?:\n|$)"


def tables(html):
    return html.count("<table>")


def more_tables(pattern):
    """The peer makes more tables of a document with such a part."""
    return lambda text, ours, theirs: tables(theirs) > tables(ours) and re.search(pattern, text)


def fewer_tables(pattern):
    """The peer makes fewer tables of a document with such a part."""
    return lambda text, ours, theirs: tables(theirs) < tables(ours) and re.search(pattern, text)


def shows(pattern):
    """A document has such a part."""
    return lambda text, ours, theirs: re.search(pattern, text)


TASKS_ALONE = shows(r"\[[ xX]\][ \t]*(\n|$)")
SPACE_IN_NAME = shows(r"\[\^[^\]\n]*[ \t]")
PIPE_IN_CODE = shows(r"`[^`]*\\\|[^`]*`")
SPACES_AFTER_BREAK = shows(r"(\\|  )\n[ \t>]+")
# by peer: what a small document shows, its HTML here and that of the peer, each with what differs
KNOWN = {
    "cmark-gfm": {
        "a head without a pipe": more_tables(BEFORE + r"[^|\n]+\n" + DELIMITER_ROW),
        "a head after lines of its paragraph that does not begin with a pipe": more_tables(BEFORE + r"[^\n]+\n[ \t>]*[^|\n][^\n]*\n" + DELIMITER_ROW),
        "a delimiter row that begins like a list item": fewer_tables(r"\n[ \t>]*-[ \t]"),
        "definitions before a head": lambda text, ours, theirs: re.search(r"<p>[^<]*\[[^\]]+\]:.*?</p>\s*<table>", theirs, re.S),
        "a line with a tag after a row": lambda text, ours, theirs: ours.count("<tr>") > theirs.count("<tr>") and re.search(r"\n[ \t>]*</?[A-Za-z]", text),
        "an indented row": lambda text, ours, theirs: ours.count("<tr>") > theirs.count("<tr>") and re.search(r"\n[ \t>]*(\t| {4})", text),
        "a lazy line that is a tag": shows(r"([->+*]|\d[.)])[^\n]*\n[ \t]*</?[A-Za-z]"),
        "a task marker with nothing after it": TASKS_ALONE,
        "a definition after a task marker": shows(r"\[[ xX]\][ \t]+\[[^\]\n]+\]:"),
        "a task marker in a container in another": shows(r"([-+*>]|\d[.)]|\]:)[ \t]*([-+*>]|\d+[.)])[ \t]*\[[ xX]\]"),
        "a footnote name with a space": SPACE_IN_NAME,
        "`[^` at the end of a line": shows(r"\[\^\n"),
        "a bracket or a backslash in the name of a footnote": shows(r"\[\^[^\]\n]*[\[\\]"),
        "a backslash before the `^` of a footnote": shows(r"\[\\\^"),
        "runs of tildes of other lengths": shows(r"~[^~]+~~|~~[^~]+~(?!~)|~~~"),
        "a tilde beside another delimiter": shows(r"[*_]~|~[*_]"),
        "a pipe after a backslash in a code span": PIPE_IN_CODE,
        "spaces after a hard line break": SPACES_AFTER_BREAK,
        "a code span that continues after leading spaces": shows(r"`[^`]*\n[ \t>]+[^`]*`"),
        "a footnote name outside ASCII": shows(r"\[\^[^\]\n]*[^\x00-\x7f]"),
        "a task marker before another": shows(r"\[[ xX]\][ \t].*\[[ xX]\]"),
        "a footnote definition that begins with a blank line": shows(r"\[\^[^\]\n]+\]:[ \t]*\n[ \t>]*\n"),
        **random_blocks.KNOWN,
    },
    "pulldown-cmark": {
        "a delimiter cell without a hyphen, or with a space in it": more_tables(r"\n" + DELIMITER_ROW),
        "a head after lines of its paragraph": fewer_tables(BEFORE + r"[^\n]+\n[ \t>]*\|[^\n]*\n" + DELIMITER_ROW),
        "a line with a pipe before a blank line": shows(r"\|[^\n]*\n[ \t>]*(\n|$)"),
        "an empty block quote or item after a paragraph": shows(r"\n[ \t]*([>-][> \t-]*|[*+])(\n|$)"),
        "a delimiter row after spaces": fewer_tables(r"\n[ \t>]*[ \t][|:-]"),
        "a pipe after a backslash in a code span": PIPE_IN_CODE,
        "definitions before a line of four spaces": shows(r"\[[^\]\n]+\]:[^\n]*\n[ \t>]{4}"),
        "a footnote reference before `[]`": shows(r"\[\^[^\]\n]+\]\[\]"),
        "a footnote definition directly in another": shows(r"\[\^[^\]\n]+\]:[ \t]*\[\^"),
        "an item directly in a footnote definition": shows(r"\[\^[^\]\n]+\]:[ \t]*([-+*]|\d+[.)])"),
        "a footnote definition after spaces": shows(r"[ \t]\[\^[^\]\n]+\]:"),
        "a footnote name with a space": SPACE_IN_NAME,
        "a block after a task marker": shows(r"\[[ xX]\][ \t]*([ \t]([-+*>#|<]|\d|`{3}|~{3})|\t|[ \t]{4})"),
        "spaces after a hard line break": SPACES_AFTER_BREAK,
        "a backslash at the end of a paragraph": shows(r"\\\n"),
        "an HTML block after spaces": shows(r"(^|\n)[ \t>]+<"),
        "a line with a pipe before another block": shows(r"\|[^\n]*\n[ \t>]*[>#*+~`_-]"),
        "a footnote definition that interrupts a paragraph": shows(r"[^\n]\n[ \t>]*\[\^[^\]\n]+\]:"),
        "a task marker with nothing after it": TASKS_ALONE,
        "a code span that continues after leading spaces, or begins with a line ending": shows(r"`(\n|[^`]*\n[ \t>]+)[^`]*`"),
        "a paragraph after indented code in a loose item": shows(r"([-+*]|\d[.)]) {5,}[^\n]*\n\s*\n"),
        "an image mark before a footnote reference": shows(r"!\[\^"),
        "a destination with a byte that a URL has escaped": shows(r"\]\([^)\n]*\^"),
        "a line of one pipe before a line that begins with one": shows(r"(^|\n)[ \t>]*\|\n[ \t>]*\|"),
        **random_blocks.KNOWN,
    },
}


class Command:
    """A program that gets the words of extensions."""

    def __init__(self, command, each):
        self.command, self.each = shlex.split(command), each

    def html(self, text, words):
        return html_of(self.command + [part for word in words for part in shlex.split(self.each.format(word))], text)


class Library:
    """The C library, as a shared object."""

    def __init__(self, file):
        self.call = ctypes.CDLL(file).markdown_to_html
        self.call.restype = ctypes.c_int64
        self.call.argtypes = [ctypes.c_char_p, ctypes.c_size_t, ctypes.c_uint32, ctypes.c_char_p, ctypes.c_size_t]

    def html(self, text, words):
        given, bits = text.encode(), 0
        for word in words:
            bits |= BITS[word]
        length = self.call(given, len(given), bits, None, 0)
        if length < 0:
            return f"error {length}"
        room = ctypes.create_string_buffer(max(length, 1))
        self.call(given, len(given), bits, room, length)
        return room.raw[:length].decode()


class Pair:
    """Ours and a peer, with some extensions."""

    def __init__(self, ours, peer, extensions):
        self.ours, self.peer = ours, peer
        old = peer == "pulldown-cmark"
        self.words = ["old-footnotes" if old and word == "footnotes" else word for word in extensions]
        if old:
            self.command = ["pulldown-cmark", *(PULLDOWN[word] for word in extensions)]
        else:
            self.command = ["cmark-gfm", "--unsafe", "--table-prefer-style-attributes"]
            self.command += [part for word in extensions for part in ("-e", CMARK[word])]

    def both(self, text):
        return both_forms(self.ours.html(text, self.words), html_of(self.command, text), self.peer == "cmark-gfm")

    def differ(self, text):
        ours, theirs = self.both(text)
        return ours != theirs

    def known(self, text):
        """What a small document shows, if it is listed."""
        ours, theirs = self.both(text)
        return next((row for row, shows in KNOWN[self.peer].items() if shows(text, ours, theirs)), None)


def documents(options):
    """The texts of the files that are named, or random documents."""
    if options.files:
        return [Path(file).read_bytes().decode(errors="replace") for file in options.files]
    return (document(random.Random(f"{options.seed}.{number}")) for number in range(options.count))


def compared(pair, texts):
    """Compares texts, and prints what is not listed. Returns how many of each difference there are."""
    found = collections.Counter()
    for text in texts:
        if not pair.differ(text):
            continue
        text = small(text, pair.differ)
        row = pair.known(text)
        found[row] += 1
        if row is None:
            print(pair.peer, repr(text), *map(repr, pair.both(text)), sep="\n    ", flush=True)
    return found


def main():
    parser = argparse.ArgumentParser()
    ours = parser.add_mutually_exclusive_group(required=True)
    ours.add_argument("--program")
    ours.add_argument("--library")
    parser.add_argument("--each", default="{}")
    parser.add_argument("--extensions", nargs="+", choices=sorted(CMARK), default=["tables", "tasklists", "footnotes"])
    parser.add_argument("--peers", nargs="+", choices=sorted(KNOWN), default=sorted(KNOWN))
    parser.add_argument("--count", type=int, default=2000)
    parser.add_argument("--seed", default="1")
    parser.add_argument("--files", metavar="FILE", nargs="+")
    options = parser.parse_args()
    program = Library(options.library) if options.library else Command(options.program, options.each)
    faults = 0
    for peer in options.peers:
        found = compared(Pair(program, peer, options.extensions), documents(options))
        for row, number in found.items():
            print(f"{peer}, {number}: {row or 'not listed'}")
        faults += found[None]
    print(f"{len(options.files or range(options.count))} documents beside {' and '.join(options.peers)}, {faults} faults")
    return 1 if faults else 0


if __name__ == "__main__":
    sys.exit(main())
