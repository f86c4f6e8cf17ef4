"""Random documents of nested blocks through the program and `cmark --unsafe`: `random_blocks.py PROGRAM [--count N]
[--seed SEED]`.

A document is lists, quotes, fences, HTML blocks, definitions, headings, tabs and blank lines, each in others, and then a
few characters of it are changed. What the profile writes otherwise everywhere is made the same. A document on which the
two still differ is made small by deletion, and then it is one of the differences that docs/DIFFERENCES.md lists
(`KNOWN`, each with the row's first cell), or it is printed. The last lines say how many of each were found. The exit
status is 1 where a difference is not listed.
"""
import argparse
import collections
import os
import random
import re
import subprocess
import sys

WORDS = "a b c".split()
MARKERS = ["- ", "* ", "+ ", "1. ", "2) ", "-", "-\t", "*   ", "10. ", "-     "]
HTML = ["<div>", "</div>", "<b>", "<!-- a", "<!-- a -->", "-->", "<?a", "?>", "<pre>", "</pre>", "<![CDATA[a", "]]>"]
DEFINITIONS = ["[a]: b", "[a]:", "[b]: <c>", "[a]: b 't'", "[a]: b\n't'", "[a]:\nb\n't\nt'", "[a]: b 't", "[c]: a 't' t"]


def words(rng):
    return " ".join(rng.choice(WORDS) for _ in range(rng.randint(1, 2)))


def leaf(rng):
    """The lines of a leaf block, or of what looks like one."""
    kind = rng.randrange(12)
    if kind < 4:
        return [words(rng) for _ in range(rng.choice((1, 1, 1, 2, 3)))]
    if kind == 4:
        return [rng.choice(("# a", "## b ##", "#", "####### a", "#\ta"))]
    if kind == 5:
        return [words(rng), rng.choice(("===", "---", "-", "="))]
    if kind == 6:
        fence = rng.choice(("~~~", "~~~~", "~~~"))
        return [fence + rng.choice(("", "", " a")), *rng.choice(([], ["a"], ["", "  b", ""], ["- a"])), *rng.choice(([fence], []))]
    if kind == 7:
        return [rng.choice(("    ", "\t", "     ")) + words(rng), *rng.choice(([], ["", "    b"], ["\tc"]))]
    if kind == 8:
        return [rng.choice(("***", "- - -", "* * *", "___", "--"))]
    if kind == 9:
        return [rng.choice(HTML), *rng.choice(([], ["a"], ["", "a"], [rng.choice(HTML)]))]
    return rng.choice(DEFINITIONS).split("\n")


def inside(rng, marker, lines):
    """An item of these lines, or of its first line alone and what stands beside it."""
    width = len(marker.expandtabs(4)) if marker.strip() != marker else len(marker) + 1
    indent = " " * rng.choice((width, width, width, width, width - 1, width + 1))
    return [marker + lines[0] if lines[0].strip() else marker.rstrip(" ")] + [indent + line if line else line for line in lines[1:]]


def blocks(rng, depth):
    """The lines of some blocks beside each other."""
    lines = []
    for _ in range(rng.choice((1, 1, 2, 2, 3))):
        kind = rng.randrange(10)
        if depth == 0 or kind < 4:
            found = leaf(rng)
        elif kind < 8:
            found = inside(rng, rng.choice(MARKERS), rng.choice(([""], [""] + blocks(rng, depth - 1), blocks(rng, depth - 1), blocks(rng, depth - 1))))
        else:
            mark = rng.choice(("> ", "> ", ">", " > ", ">\t"))
            found = [mark + line if line or rng.random() < 0.7 else line for line in blocks(rng, depth - 1)]
            found = found if rng.random() < 0.7 else found[:1] + [line.removeprefix(mark) for line in found[1:]]
        lines += found + rng.choice(([], [], [""], [""], ["", ""], [" "]))
    return lines


def document(rng):
    text = "\n".join(blocks(rng, rng.randint(1, 4)))
    for _ in range(rng.choice((0, 0, 0, 1, 2))):
        at = rng.randint(0, len(text))
        text = text[:at] + rng.choice(("", "", " ", "\t", "\n", "> ", "- ", "  ")) + text[at + rng.randint(0, 1):]
    return text + rng.choice(("\n", "\n", ""))


def html_of(command, text):
    ran = subprocess.run(command, input=text.encode(), stdout=subprocess.PIPE, stderr=subprocess.PIPE, timeout=20)
    return ran.stdout.decode() if ran.returncode == 0 else f"exit status {ran.returncode}"


def same_written(html):
    """HTML in which what the profile writes otherwise everywhere is the same: line endings, those beside tags, and `\"`."""
    html = html.replace("\r\n", "\n").replace("\r", "\n").replace("&quot;", '"')
    html = re.sub(r"\n*([ \t]*<(?!br|/(?!(?:div|b|pre)\b))[^\n>]*(>|(?=\n|$)))\n*", r"\1", html)
    return re.sub(r"\n*(</[^\n>]*>|-->|\?>|\]\]>)\n*", r"\1", html).strip("\n")


def without(names, html):
    """HTML without the tags of some names."""
    return re.sub(rf"</?({names})( [^>]*)?>", "", html)


def only_loose(ours, theirs):
    """They differ in which lists are loose alone."""
    return without("p", ours) == without("p", theirs)


BLANK = r"\n[ \t>]*\n"
BREAK = r"([*_-])[ \t]*\1[ \t]*\1"
ITEM = r"([-+*]|\d[.)])[ \t]*"
DEFINES = r"\[[^]\n]+\]:[ \t>\n]*\S"
# what a small document shows, its HTML here and that of `cmark`, by the first cell of the row that says why
KNOWN = {
    "`a <!b>`, and a line `<!b`": lambda text, ours, theirs: re.search(r"<![A-Za-z]", text)
        and theirs.count("&lt;!") > ours.count("&lt;!"),
    "a tag that continues on a line with leading spaces": lambda text, ours, theirs: re.search(r"<[^>\n]*\n[ \t]", text)
        and re.sub(r"\s", "", ours) == re.sub(r"\s", "", theirs),
    "a line `</script>`": lambda text, ours, theirs: re.search(r"</(script|style|pre|textarea)", text, re.I),
    "`[a]: /u`, `---`": lambda text, ours, theirs: "<hr />" in ours
        and re.search(DEFINES + r"[^\n]*(\n[^\n]*)*\n[ >\t]*-{3,}[ \t]*(\n|$)", text),
    "`[a]: /u`, `'t' b`": lambda text, ours, theirs: "title=" in theirs and "title=" not in ours,
    "`- ***`, a blank line, `  a`": lambda text, ours, theirs: only_loose(ours, theirs) and re.search(BREAK, text)
        and re.search(BLANK, text) and len(re.findall("<p>", ours)) > len(re.findall("<p>", theirs)),
    "`-`, `  [a]: /u`, two blank lines, `  b`": lambda text, ours, theirs: re.search(ITEM + r"(\n[ \t>]*)?" + DEFINES + r"[^\n]*(\n[^\n]+)*"
        + BLANK + r"[ \t>]*\n", text),
    "`~~~ a`, a tab, `b`": lambda text, ours, theirs: re.search(r"(~~~|```)[^\n]*\t", text),
    "`- [a]: /u`, a blank line, `  b`": lambda text, ours, theirs: only_loose(ours, theirs) and re.search(DEFINES, text)
        and re.search(BLANK, text) and len(re.findall("<p>", ours)) > len(re.findall("<p>", theirs)),
    "`- <!-- a`, a blank line, `- b`": lambda text, ours, theirs: only_loose(ours, theirs) and re.search(r"<(!|\?|pre)", text)
        and re.search(BLANK, text) and len(re.findall("<p>", ours)) < len(re.findall("<p>", theirs)),
    "`> [a]: /u`, ` b`": lambda text, ours, theirs: re.search(DEFINES, text) and re.sub(r"(^|>)[ \t]+", r"\1", theirs) == ours,
    "`-`, a line of two spaces, `  a`": lambda text, ours, theirs: re.search(rf"(^|\n)(?:[ \t>]|\d*{ITEM})*\d*{ITEM}\n[ \t>]*[ \t]+\n", text),
    "`>`, a tab, `~~~`, and a line of `>` and a tab": lambda text, ours, theirs: re.search(r"\t[ \t>]*(~~~|```)", text)
        and ours.replace(" ", "") == theirs.replace(" ", ""),
}


def known(text, ours, theirs):
    """The row of the list of differences that a small document shows."""
    return next((row for row, shows in KNOWN.items() if shows(text, ours, theirs)), None)


class Pair:
    """The two programs."""

    def __init__(self, program):
        self.program = program

    def both(self, text):
        return same_written(html_of([self.program], text)), same_written(html_of(["cmark", "--unsafe"], text))

    def differ(self, text):
        ours, theirs = self.both(text)
        return ours != theirs


def small(text, fails):
    """A text that still fails when no part of it can be deleted."""
    size = len(text) // 2
    while size > 0:
        at = 0
        while at < len(text):
            less = text[:at] + text[at + size:]
            if fails(less):
                text = less
            else:
                at += size
        size = size // 2 if size > 1 or at == 0 else 0
    return text


def unlisted():
    """The patterns of which docs/DIFFERENCES.md has no row."""
    with open(os.path.join(os.path.dirname(os.path.abspath(__file__)), "..", "DIFFERENCES.md")) as file:
        rows = {line.split(" | ")[0].removeprefix("| ") for line in file}
    return [row for row in KNOWN if row not in rows]


def main():
    assert not unlisted(), unlisted()
    parser = argparse.ArgumentParser()
    parser.add_argument("program")
    parser.add_argument("--count", type=int, default=5000)
    parser.add_argument("--seed", default="1")
    options = parser.parse_args()
    pair = Pair(options.program)
    listed, others = collections.Counter(), 0
    for number in range(options.count):
        text = document(random.Random(f"{options.seed}.{number}"))
        if pair.differ(text):
            text = small(text, pair.differ)
            ours, theirs = pair.both(text)
            row = known(text, ours, theirs)
            listed[row] += 1
            if row is None:
                others += 1
                print(repr(text), repr(ours), repr(theirs), sep="\n    ", flush=True)
    for row, count in listed.items():
        print(f"{count}: {row or 'not listed'}")
    print(f"{options.count} documents, {others} faults")
    return 1 if others else 0


if __name__ == "__main__":
    sys.exit(main())
