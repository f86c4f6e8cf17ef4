"""Hostile texts for benchmarks, the same on each run: `hostile.py KIND BYTES` prints one of about so many bytes.

`hostile.py --check PROGRAM [KIND ..]` tells whether a program takes at most 2.2 times the instructions at twice the size:
for each kind, or these, at 10,000, 20,000 and 40,000 bytes, without an extension, with those that the kind needs, and with all;
and of some kinds what else `markdown` writes.
PROGRAM is `markdown_html`, which takes extensions as words, or `markdown`, which has the full reading; `--check` may
be given for each. It prints a table of the instructions in millions, without those of a text of one letter, how often one size
takes those of the one before, and how many a byte takes. A line where one size takes more than 2.2 times as many says so
at its end, and then the exit status is 1. `--jobs N` runs N programs at once.

`hostile.py --beside PROGRAM MD4C KIND ..` runs the program on 20,000 and on 40,000 bytes of each kind, and `cmark`,
`pulldown-cmark` and `md4c` (`md4c.c`, compiled) on 5,000 and on 10,000, since some of these take much longer. It prints a
table of the instructions in millions. All are counted by valgrind.
"""
import argparse
import concurrent.futures
import itertools
import math
import re
import subprocess
import sys

# A family of texts is a part that is repeated, or a function that makes the text of a size.


def repeated(part, size):
    return part * (size // len(part))


def text_of(family, size):
    return repeated(family, size) if isinstance(family, str) else family(size)


def of(*parts):
    """These parts, one after the other: those in a list are repeated, each as often as the others, and the rest stand once."""
    once = sum(len(part) for part in parts if isinstance(part, str))
    each = sum(len(part[0]) for part in parts if isinstance(part, list))

    def text(size):
        count = max(size - once, 0) // each
        return "".join(part if isinstance(part, str) else part[0] * count for part in parts)

    return text


def before(first, part):
    """A part, and another that is repeated."""
    return lambda size: first + repeated(part, size)


def first_half(part, between, then):
    """A part that is repeated for half the size, and another for the other half."""
    return lambda size: repeated(part, size // 2) + between + repeated(then, size // 2)


def halves(first, then):
    """The text of one family for half the size, and that of another for the other half."""
    return lambda size: text_of(first, size // 2) + text_of(then, size // 2)


def below(container, content, line, first=""):
    """A line of nested containers with content, for half the size, and then equal lines, as many as fit."""

    def text(size):
        opened = repeated(container, size // 2) + content + "\n"
        return first + opened + line * ((size - len(opened)) // len(line))

    return text


def deep(container, content, lines):
    """A line of nested containers, as many as half the root of the size, and lines that each enter them all."""

    def text(size):
        count = max(math.isqrt(size) // 2, 1)
        opened = container * count + content + "\n"
        return opened + repeated("".join(prefix * count + rest for prefix, rest in lines), size - len(opened))

    return text


def grown(part):
    """Parts, each made from its number, up to the size."""

    def text(size):
        made, length = [], 0
        for number in itertools.count():
            if length >= size:
                return "".join(made)
            made.append(part(number))
            length += len(made[-1])

    return text


rising_backticks = grown(lambda number: "`" * (number + 1) + "a")


def rising_and_falling_backticks(size):
    runs = ["`" * length + "a" for length in range(1, max(math.isqrt(size), 2))]
    return "".join(runs + runs[::-1])


def wide_head(columns, size):
    """A head of many cells, and rows of one."""
    text = "|a" * columns + "|\n" + "|-" * columns + "|\n"
    return text + "x\n" * ((size - len(text)) // 2)


# what begins a block, in lines or in one line
BEGINNINGS = {
    "quotes": ">",
    "quotes-end": lambda size: ">" * size + "a\n" * 2,
    "quote-lines": "> a\n",
    "markers": "- ",
    "markers-end": lambda size: repeated("- ", size) + "a\n",
    "marks": "* - + ",
    "breaks": "- * _ ",
    "numbers": "1. ",
    "digits": "1",
    "number-lines": "1234567890. a\n",
    "items": "- a\n",
    "empty-items": "-\n",
    "changing-markers": "- a\n+ a\n1. a\n2) a\n",
    "growing": grown(lambda number: "  " * number + "* a\n"),
    "growing-loose": grown(lambda number: "  " * number + "* a\n\n"),
    "blank-list": lambda size: "- a\n" + "\n" * size + "- b\n",
    "blank-items": "- a\n\n",
    "blank-lines": "\n",
    "spaces": " ",
    "tabs": " \t",
    "tab-lines": " \t \ta\n",
    "fenced-blank": lambda size: "    a\n" + "\n" * size,
    "indented-lines": "    a\n\n\n",
    "fence": before("- ```\n", "a\n"),
    "fence-lines": "```\na\n```\n",
    "open-fences": "``` a\n~~~~ b\n",
    "rising-fences": grown(lambda number: "~" * (number + 3) + "\n"),
    "headings": "# a\n",
    "closed-headings": "# a # # #\n",
    "closing-hashes": before("# a ", "#"),
    "underlines": "a\n===\n",
    "long-paragraph-and-underline": lambda size: "a\n" * (size // 2) + "===\n",
    "fences-in-items": "- ```\n",
}

# lines below many containers: which of them go on
BELOW = {
    "blank-below-items": below("- ", "a", "\n"),
    "white-below-items": below("- ", "a", "  \n"),
    "lazy-below-items": below("- ", "a", "a\n"),
    "tabs-below-items": below("- ", "a", "\ta\n"),
    "items-below-items": below("- ", "a", "- a\n"),
    "definitions-below-items": below("- ", "[a]: b", "[a]: b\n"),
    "underlines-below-items": below("- ", "a", "===\n"),
    "blank-below-numbers": below("1. ", "a", "\n"),
    "blank-in-fence": below("- ", "```", "\n"),
    "blank-in-indented": below("- ", "    a", "\n"),
    "blank-in-html": below("- ", "<!--", "\n"),
    "blank-in-empty-item": below("- ", "", "\n"),
    "lazy-below-quotes": below("> ", "a", "a\n"),
    "lazy-below-quotes-and-lists": below("> - ", "a", "a\n"),
    "one-quote-below-quotes": below("> ", "a", ">\n"),
    "lists-in-quotes": below("- ", "a", ">\n", first="> "),
    "quotes-in-lists": below("- ", "a", "  >\n", first="- > "),
    "quotes-and-lists": below("- > ", "a", "\n"),
    "blank-in-footnotes": below("[^a]: ", "a", "\n"),
    "lazy-in-footnotes": below("[^a]: ", "a", "a\n"),
    "footnotes-and-lists": below("[^a]: - ", "a", "\n"),
    "old-footnotes": below("[^a]: ", "a", "a\n"),
    "old-footnotes-and-quotes": below("[^a]: ", "> - a", "> a\n"),
    "old-footnotes-and-lists": below("- [^a]: ", "a", "\n"),
    "deep-quotes": deep("> ", "a", [("> ", "a\n")]),
    "deep-items": deep("- ", "a", [("  ", "- a\n")]),
    "deep-white-lines": deep("- ", "a", [("  ", "\n")]),
    "deep-blank-and-filled": deep("- ", "a", [("", "\n"), ("  ", "a\n")]),
    "deep-code": deep("- ", "```", [("  ", "a\n")]),
    "deep-footnotes": deep("[^a]: ", "a", [("\t", "a\n")]),
    "left-and-entered": deep("- ", "a", [("- ", "a\n"), ("", "\n"), ("", "b\n")]),
}

# inline markup over lines of deep containers: the part of each line that they take
LINES = {
    "code-below-items": of(["- "], "x\n", ["`a\n"]),
    "code-and-text-below-items": of(["- "], "x\n", ["`a\nb` "]),
    "spaced-code-below-items": of(["- "], "x\n", ["`a\n ` "]),
    "code-below-numbers": of(["1. "], "x\n", ["`a\n"]),
    "code-below-quotes": of(["> "], "x\n", ["`a\n"]),
    "code-below-lists-and-quotes": of(["- > "], "x\n", ["`a\n"]),
    "math-below-items": of(["- "], "x\n", ["$a\nb$\n"]),
    "display-math-below-items": of(["- "], "x\n", ["$$\na\n$$\n"]),
    "labels-below-items": of(["- "], "x\n", ["[b\nc]\n"]),
    "full-references-below-items": of(["- "], "x\n", ["[b][c\nd]\n"]),
    "destinations-below-items": of(["- "], "x\n", ["[a](\nb\n)\n"]),
    "titles-below-items": of(["- "], "x\n", ["[a](b\n'c\nd')\n"]),
    "open-titles-below-items": of(["- "], "x\n", ["[a](b\n'c\n"]),
    "tags-below-items": of(["- "], "x\n", ["<a\nb>\n"]),
    "values-below-items": of(["- "], "x\n", ["<a b='\nc'\n>\n"]),
    "open-tags-below-items": of(["- "], "x\n", ["<a\nb\n"]),
    "comments-below-items": of(["- "], "x\n", ["a <!--\n-->\n"]),
    "breaks-below-items": of(["- "], "x\n", ["a  \nb\\\n"]),
    "emphasis-below-items": of(["- "], "x\n", ["*a\nb*\n"]),
    "code-in-deep-items": deep("- ", "x", [("  ", "`a\n"), ("  ", "b`\n")]),
    "tags-in-deep-quotes": deep("> ", "x", [("> ", "<a\n"), ("> ", "b>\n")]),
    "code-in-footnotes": of(["[^a]: "], "x\n", ["`a\n"]),
    "tabbed-code-in-footnotes": of(["[^a]: "], "x\n", ["\t`a\n"]),
    "code-in-old-footnotes": of(["[^a]: "], "x\n", ["`b\n"]),
    "labels-in-old-footnotes": of(["[^a]: "], "x\n", ["[b\nc]\n"]),
    "tags-in-old-footnotes": of(["[^a]: "], "x\n", ["<b\nc>\n"]),
    "titles-in-old-footnotes": of(["[^a]: "], "x\n", ["[b](c\n'd\ne')\n"]),
    "code-in-old-footnotes-and-lists": of(["- [^a]: "], "x\n", ["`b\n"]),
}

# many chains: what each costs by itself, for what is above it or was read before it
CHAINS = {
    "headings-in-old-footnotes": of(["[^a]: "], "x\n", ["# *a*\n"]),
    "chains-in-images": of(["![*a*"], ["](b)"]),
    "chains-in-reference-images": of("[b]: c\n\n", ["![*a*"], ["][b]"]),
    "quotes-in-images": of(["!['a' "], ["](b)"]),
    "chains-after-references": of(["[a][b] "], "\n\n", ["*a*\n\n"]),
    "chains-after-backticks": lambda size: rising_backticks(size // 2) + "\n\n" + repeated("`a\n\n", size // 2),
    "chains-after-dollars": first_half("$a ", "\n\n", "$a\n\n"),
    "chains-after-openers": first_half("[", "\n\n", "[\n\n"),
    "chains-after-runs": first_half("*a ", "\n\n", "*a\n\n"),
    "chains-after-comments": first_half("a <!-- ", "\n\n", "a <!-- b\n\n"),
    "headings-with-chains": "# *a*\n",
}

TABLES = {
    "cells-in-quotes": of(["> "], ["|*a*"], "|\n", ["> "], ["|-"], "|\n"),
    "rows-in-quotes": deep("> ", "|a|", [("> ", "|-|\n"), ("> ", "|*a*|\n"), ("> ", "\n"), ("> ", "|a|\n")]),
    "wide-head": lambda size: wide_head(size // 8, size),
    "narrow-rows": lambda size: wide_head(math.isqrt(size), size),
    "wide-white-row": lambda size: "|a" * (size // 8) + "|\n" + "|-" * (size // 8) + "|\na|" + " " * (size // 2),
    "light-heads": before('[a]: /u "\n', "a|b\n-|-\n"),
    "unfit-heads": "|a|\n|-|-|\n",
    "unfit-heads-after-definitions": before("[a]: /u\n" * 9, "a|b\n-|-|-\n"),
    "heads-below-items": of(["- "], "|a|\n", ["|-|\n"]),
    "colons-and-hyphens": before("a\n", ":-:|"),
    "table-pipes": before("|a|\n|-|\n", "|"),
    "pipe-rows": before("|a|\n|-|\n", "||||||||\n"),
    "escaped-pipes": lambda size: "|a|\n|-|\n|" + "\\|" * (size // 2),
    "paired-backslashes": lambda size: "|a|\n|-|\n|" + "\\\\|" * (size // 3),
    "code-in-cells": before("|a|\n|-|\n", "|`\\|\\|` `|\n"),
    "links-in-cells": before("|a|b|\n|-|-|\n", "[a\\|](b \"\\|\")|[a\n"),
    "table-lines": "|a|\n|-|\n\n",
    "tables-of-rows": "|a|\n|-|\n|b|\n\n",
}

# definitions of links and footnotes, and what looks them up
DEFINITIONS = {
    "definitions": "[a]: ",
    "definition-lines": "[a]: b\n",
    "titles": "[a]: b 'c\n",
    "definitions-over-lines": "[a\nb]:\nc\n'd\ne'\n",
    "definitions-in-quotes": "> [a]: b\n",
    "definitions-and-underlines": "[a]: b\n===\n",
    "definitions-and-open-title": lambda size: repeated("[a]: b\n", size) + "'c\n",
    "open-titles-between-definitions": "[a]: b\n'c\n\n",
    "labels": "[a\n",
    "long-labels": f"[{'a' * 119}]: b\n\n[{'a' * 120}]\n\n",
    "escaped-labels": "[" + "\\]" * 40 + "]: b\n",
    "numbered-definitions": grown(lambda number: f"[{number}]: b\n\n[{number}] "),
    "definitions-of-one-beginning": grown(lambda number: f"[{'a' * 90}{number}]: b\n\n[{'a' * 90}{number}] "),
    "defined-references": before("[a]: b\n\n", "[a] "),
    "long-destination": lambda size: f"[a]: {'b' * (size // 2)}\n\n" + "[a] " * (size // 8),
    "numbered-footnotes": grown(lambda number: f"[^{number}]: a\n\n[^{number}] "),
    "footnote-references": before("[^a]: b\n\n", "[^a]"),
    "undefined-footnotes": "[^a]![^b]",
    "footnote-openers": "[^",
}

# brackets, in order of what they begin
BRACKETS = {
    "brackets": "[",
    "closers": "]",
    "bracket-pairs": "[]",
    "nested-brackets": first_half("[", "", "]"),
    "references": "[a]",
    "collapsed-references": "[a][]",
    "full-references": "[a][b] ",
    "label-starts": "[a][",
    "long-label-starts": f"[a][{'b' * 246}",
    "link-starts": "[a](",
    "parentheses": "[a](((((((((",
    "escaped-parentheses": "[a](\\(\\)",
    "open-destinations": "[a](<b",
    "open-titles": "[a](\"",
    "title-lines": "[a](b \"c\n",
    "three-titles": "[a](b \"c\n[a](b 'c\n[a](b (c\n",
    "titles-with-entities": "[a](b '&amp;&copy;\\'') ",
    "links": "[a](b) ",
    "nested-links": of(["["], "a", ["](b)"]),
    "image-openers": "![",
    "nested-images": of(["!["], "a", ["](b)"]),
    "images-and-links": of(["[![a"], ["](b)](c)"]),
    "nested-reference-images": of("[a]: b\n\n", ["![a"], ["][a]"]),
    "links-in-images": of(["![[a](b)"], ["](c)"]),
    "double-brackets": "[[",
    "open-wikilinks": "[[a|",
    "empty-wikilinks": "[[|]]",
    "wikilinks": "[[a|b]]",
    "nested-wikilinks": of(["[[a"], ["]]"]),
    "nested-wikilinks-of-images": of(["![[a|"], ["]]"]),
    "nested-empty-wikilinks": of(["[[|"], ["]]"]),
}

DELIMITERS = {
    "stars": "*",
    "openers": "*a ",
    "strong": "a**",
    "mixed-runs": "*_",
    "words": "*a_a",
    "long-openers": "**a *b",
    "either": "_a *",
    "three-lengths": "a*b**c***d",
    "closers-of-three-lengths": "***a** b* c*** ",
    "nested-emphasis": of(["*a "], ["a* "]),
    "one-run-and-its-closer": of(["*"], "a", ["*"]),
    "one-run-and-closers": of(["*"], ["a* "]),
    "openers-and-either": first_half("*a ", "", "a_b*c"),
    "tildes-and-carets": "~a^",
    "failing-carets": "~a ~~a a^ ",
    "failing-closers": lambda size: "*a " * (size // 6) + "a~ a~~ a^ " * (size // 20),
    "nested-strikes": of(["~~a "], ["a~~ "]),
    "quotation-marks": "'a\" ",
    "open-quotation-marks": "'a \"a ",
}

SPANS = {
    "backticks": "`",
    "backtick-lines": "```a`\n",
    "rising-backticks": rising_backticks,
    "rising-and-falling-backticks": rising_and_falling_backticks,
    "ticked-words": "`a",
    "escaped-ticks": "\\``a",
    "dollars": "$",
    "dollar-words": "$a ",
    "dollar-pairs": "$$a ",
    "closed-dollars": "a$ ",
    "braced-dollars": "{$a}",
    "open-braces-and-dollars": "{$a",
}

# what begins with `<`: tags, autolinks, comments and the like
ANGLES = {
    "less-thans": "<",
    "tag-lines": "<a\n",
    "open-tags": "<a ",
    "tags": "<a b=c d='e' f>",
    "closing-tags": "</a ",
    "attributes": "<a b='",
    "attributes-of-one-tag": before("a <b", " c=d"),
    "values-of-both-quotes": "<a b=' c=\" d=' e=\"",
    "white-space-in-tags": f"<a{' ' * 40}=",
    "declarations": "<!",
    "lettered-declarations": "<!A ",
    "comments": "<!--",
    "inline-comments": "a <!-- -",
    "sections": "<![CDATA[",
    "instructions": "<?",
    "html-lines": "<div>\n\n",
    "verbatim-lines": before("<pre>\n", "</pre </script </style </textarea\n"),
    "comment-lines": "<!-- a\n--><?\n?>\n",
    "lone-tags": "<a>\n\n<b c='d'/>\n\n",
    "addresses": "<ab:",
    "email-addresses": "<a@b.c>",
    "open-email-addresses": "<a@b.",
    "email-labels": "<a@" + "b-" * 40,
    "one-email-address": lambda size: "<a@" + "b." * (size // 2),
    "long-local-parts": f"<{'a' * 248}@",
}

# single characters: references, escapes, dashes
CHARACTERS = {
    "ampersands": "&",
    "numeric-entities": "&#65;&#x41;",
    "open-numeric-entities": "&#1111111111",
    "named-entities": "&copy;",
    "two-character-entities": "&nGtv;",
    # of the letter with the most names
    "shortest-names": "&nu;",
    "last-names": "&nwnear;",
    "one-letter-names": "&n;",
    "longest-names": "&CounterClockwiseContourIntegral;",
    "open-names": "&CounterClockwiseContourIntegral ",
    "unknown-names": "&" + "a" * 40 + ";",
    "unknown-last-names": "&nzzzzz;",
    "names-in-destinations": "[a](&n;&nwnear;) ",
    "escapes": "\\",
    "hard-breaks": "a  \na\\\n",
    "backslash-lines": "a" + "\\" * 40 + "\n",
    "hyphens-and-letters": "a--",
    "one-run-of-hyphens": lambda size: "a" + "-" * (size - 1),
    "dots": ".",
}

# what the full reading alone has, but for tables
EXTENDED_BLOCKS = {
    "metadata": "---\na\n---\n",
    "open-metadata": "---\na\n\n",
    "metadata-and-underlines": "a\n---\nb\n...\n",
    "both-metadata": "---\n+++\na\n",
    "metadata-in-items": "- a\n---\nb\n",
    "tasks": "- [ ] a\n",
    "task-markers": before("- ", "[ ] "),
    "nested-tasks": of(["- "], "[x] a\n", ["[ ] a\n"]),
    "alerts": "> [!note]\n> a\n\n",
    "alerts-in-quotes": of(["> "], "[!note]\n", ["> a\n"]),
    "alert-openers": "> [!note",
    "heading-attributes": "# a {#b .c d=e}\n",
    "many-attributes": lambda size: "# a {" + repeated(" .a #b c=d", size) + "}\n",
    "braces": before("# a ", "{"),
    "closed-braces": before("# a ", "{}"),
    "attributes-of-underlined": "a {#b}\n===\n",
}

# headings, whose ids must differ: how often numbers are tried, what is compared, what is kept until the end of a heading
HEADINGS = {
    "equal-headings": "# a\n",
    "headings-without-anchors": "# !\n",
    "numbered-headings": grown(lambda number: f"# a {number}\n"),
    "numbered-headings-and-equal-ones": halves(grown(lambda number: f"# a {number + 1}\n"), "# a\n"),
    "equal-headings-and-numbered-ones": halves("# a\n", grown(lambda number: f"# a {number + 1}\n")),
    "equal-headings-among-numbered-ones": grown(lambda number: f"# a {number + 1}\n# a\n"),
    "headings-of-rising-numbers": grown(lambda number: f"# a{' 1' * number}\n"),
    "rising-numbers-and-equal-headings": halves(grown(lambda number: f"# a{' 1' * number}\n"), "# a\n# a 1\n# a 1 1\n"),
    "ids-of-authors-and-equal-headings": halves(grown(lambda number: f"# a {{#a-{number + 1}}}\n"), "# a\n"),
    "footnotes-and-equal-headings": halves(grown(lambda number: f"[^a-{number + 1}]: b\n\n"), "# a\n"),
    "long-equal-headings": f"# {'a' * 400}\n",
    "long-headings-of-one-beginning": grown(lambda number: f"# {'a' * 400} {number}\n"),
    "rising-headings": grown(lambda number: f"# {'a' * (number + 1)}\n"),
    "headings-of-growing-letters": "# İİİİ ẞẞẞẞ\n",
    "one-heading": before("# ", "a "),
    "one-heading-of-parts": before("# ", "*a* `b` "),
    "one-heading-of-lines": lambda size: repeated("*a*\n", size) + "===\n",
    "headings-of-images": "# ![a ![b](c) d](e)\n",
    "headings-below-items": of(["- "], "# a\n", ["# a\n"]),
    "headings-in-deep-items": deep("- ", "# a", [("  ", "# a\n")]),
    "headings-in-growing-lists": grown(lambda number: "  " * number + "- # a\n"),
    "headings-in-deep-quotes": deep("> ", "# a", [("> ", "# a\n")]),
    "falling-and-rising-levels": "###### a\n# a\n",
    "links-to-headings": before("# a\n\n", "[a](#a) "),
    "long-links-to-headings": lambda size: f"[a]: #{'b' * (size // 2)}\n\n" + "[a] " * (size // 8),
}

# bare addresses: what is read again, before an `@`, in a host that is none, and at the end of an address
ADDRESSES = {
    "bare-addresses": "http://a.b ",
    "bare-schemes": "http://",
    "bare-schemes-and-letters": "http://a",
    "bare-schemes-of-one-letter": "h",
    "bare-hosts": "www.",
    "bare-hosts-that-are-none": "http://_ www._ ",
    "underscores-in-bare-hosts": "www.a_",
    "underscores-in-labels": "www.a_.",
    "ten-labels-with-underscores": "www.a_" * 10 + " ",
    "twelve-labels-with-underscores": "www.a_" * 12 + " ",
    "long-labels-with-underscores": "_".join("www." + "a" * 40 for _ in range(10)) + "_ ",
    "one-bare-host": before("http://", "a."),
    "one-bare-host-with-underscores": before("http://", "a_."),
    "one-label": lambda size: "www." + "a" * (size - 5) + "_",
    "at-signs": "@",
    "letters-and-at-signs": "a@",
    "one-name": lambda size: "a" * (size - 4) + "@b.c",
    "one-name-and-at-signs": lambda size: "a" * (size // 2) + "@" * (size // 2),
    "names-of-one-beginning": lambda size: "a" * (size // 2) + "@b " * (size // 6),
    "bare-mail": "a@b.c ",
    "hosts-of-mail": "a@b.",
    "one-host-of-mail": before("a@", "b."),
    "one-host-of-hyphens": before("a@", "b-"),
    "hosts-of-mail-that-are-none": "a@b.1 a@b.c- a@b.c_ ",
    "mail-before-at-signs": "a@b.c@",
    "mail-schemes": "mailto:",
    "mail-schemes-and-mail": "mailto:mailto:a@b.c ",
    "closing-parentheses": before("http://a.b/", ")"),
    "opening-parentheses": before("http://a.b/", "("),
    "parentheses-of-one-address": of("http://a.b/", ["("], [")"]),
    "more-closing-parentheses": of("http://a.b/", ["("], ["))"]),
    "addresses-in-parentheses": "(http://a.b)",
    "addresses-and-parentheses": ")http://a.b(",
    "punctuation-of-one-address": before("http://a.b/", "?!.,:"),
    "semicolons-of-one-address": of("http://a.b/", ["&a"], [";"]),
    "references-of-one-address": before("http://a.b/", "&a&a;;;"),
    "names-and-semicolons-of-one-address": of("http://a.b/&", ["a"], [";"]),
    "escapes-in-one-address": before("http://a.b/", "\\*"),
    "references-in-one-address": before("http://a.b/", "&amp;"),
    "underscores-in-one-address": before("http://a.b/", "c_d_ "),
    "addresses-in-brackets": "[http://a.b ",
    "addresses-in-links": "[http://a.b](c)",
    "addresses-in-images": of(["![http://a.b "], ["](c)"]),
    "addresses-in-emphasis": of(["*http://a.b "], ["www.a.b* "]),
    "addresses-in-headings": "# http://a.b\n",
    "addresses-in-cells": before("|a|\n|-|\n", "|http://a.b|\n"),
    "addresses-and-dashes": "http://a.b/c--d...'e' ",
    "addresses-of-many-bytes": "http://ü.de/字 ",
}

GROUPS = [
    BEGINNINGS, BELOW, LINES, CHAINS, TABLES, DEFINITIONS, BRACKETS, DELIMITERS, SPANS, ANGLES, CHARACTERS, EXTENDED_BLOCKS, HEADINGS,
    ADDRESSES,
]
FAMILIES = {kind: family for group in GROUPS for kind, family in group.items()}

# The extensions that a kind needs, as both programs name them; the others need none. Most go by what a kind's name says.
NEEDS = {
    **{kind: ["tables"] for kind in TABLES},
    **{kind: ["old-footnotes"] for kind in FAMILIES if "old-footnotes" in kind},
    **{kind: ["footnotes"] for kind in FAMILIES if "footnote" in kind and "old-footnotes" not in kind},
    **{kind: ["math"] for kind in FAMILIES if "dollar" in kind or "math" in kind},
    **{kind: ["wikilinks"] for kind in FAMILIES if "wikilinks" in kind or kind == "double-brackets"},
    **{kind: ["smart"] for kind in ("quotes-in-images", "quotation-marks", "open-quotation-marks", "dots")},
    **{kind: ["smart"] for kind in FAMILIES if "hyphens" in kind and kind not in TABLES},
    **{kind: ["strikethrough", "subscript", "superscript"] for kind in ("tildes-and-carets", "failing-carets", "failing-closers")},
    "nested-strikes": ["strikethrough"],
    **{kind: ["yaml", "pluses"] for kind in EXTENDED_BLOCKS if "metadata" in kind},
    **{kind: ["tasklists"] for kind in EXTENDED_BLOCKS if "task" in kind},
    **{kind: ["gfm"] for kind in EXTENDED_BLOCKS if "alert" in kind},
    **{kind: ["heading-attributes"] for kind in EXTENDED_BLOCKS if "attributes" in kind or "braces" in kind},
    **{kind: ["heading-ids"] for kind in HEADINGS},
    "ids-of-authors-and-equal-headings": ["heading-ids", "heading-attributes"],
    "footnotes-and-equal-headings": ["heading-ids", "footnotes"],
    **{kind: ["autolinks"] for kind in ADDRESSES},
    "addresses-in-cells": ["autolinks", "tables"],
    "addresses-and-dashes": ["autolinks", "smart"],
}
# what else `markdown` writes for these kinds, and is checked
WRITTEN = {
    **{kind: {"outline": ["-t", "outline", "-e", "heading-ids"], "contents": ["-t", "toc"]} for kind in HEADINGS},
    **{kind: {"safe HTML": ["--safe", "-e", "heading-ids"]} for kind in HEADINGS if "links" in kind},
    # (not where images nest: the line of each has the text of all that are in it)
    **{kind: {"links": ["-t", "links"]} for kind in BRACKETS if "image" not in kind},
}
# those that the port's profile has; it takes the others' words, and reads nothing more for them
PRESENT = ["footnotes", "math", "old-footnotes", "smart", "strikethrough", "subscript", "superscript", "wikilinks"]
OF_PULLDOWN = {"tables": "-T", "footnotes": "-F", "old-footnotes": "-F"}


def text(kind, size):
    return text_of(FAMILIES[kind], size)


def instructions(command, text):
    """How many instructions the command takes for a text, by valgrind."""
    counted = ["valgrind", "--tool=callgrind", "--callgrind-out-file=/dev/null", *command]
    said = subprocess.run(counted, input=text.encode(), stdout=subprocess.DEVNULL, stderr=subprocess.PIPE, check=True)
    return int(re.search(rb"Collected : (\d+)", said.stderr)[1])


SIZES = (10000, 20000, 40000)
MOST = 2.2


def takes_flags(program):
    """Whether a program is `markdown`, which takes flags."""
    return subprocess.run([program, "-a"], stdin=subprocess.DEVNULL, capture_output=True).returncode == 0


def word_lists(kind, flags):
    """The names of the lists of words that a program is run with, and the lists: those that read alike once."""
    needed = [word for word in NEEDS.get(kind, ()) if flags or word in PRESENT]
    # (old footnotes would take the place of the others)
    everything = ["-a"] if flags else [word for word in PRESENT if word != "old-footnotes"]
    as_given = [given for word in needed for given in (["-e", word] if flags else [word])]
    lists = {"none": [], ", ".join(needed): as_given, "all": [*everything, *as_given], **(WRITTEN.get(kind, {}) if flags else {})}
    return {name: tuple(words) for name, words in lists.items() if name}


def row(program, kind, name, words, start):
    """A line of the table of checks, and whether it has a ratio that is too large. `start` is what one letter takes."""
    texts = [text(kind, size) for size in SIZES]
    counts = [max(instructions([program, *words], it) - start, 1) for it in texts]
    ratios = [twice / once for once, twice in zip(counts, counts[1:])]
    found = [ratio for ratio in ratios if ratio > MOST]
    millions, shown = ([f"{it / 1e6:.2f}" for it in counts], [f"{it:.2f}" for it in ratios])
    cells = [f"`{kind}`", name, *millions, *shown, f"{counts[-1] / len(texts[-1]):.0f}"]
    flag = f" more than {MOST}: {', '.join(f'{it:.2f}' for it in found)}" if found else ""
    return f"| {' | '.join(cells)} |{flag}", bool(found)


def check(programs, kinds, jobs):
    sizes = [f"{size:,} bytes" for size in SIZES]
    found = checked = 0
    with concurrent.futures.ThreadPoolExecutor(jobs) as pool:
        for program in programs:
            flags = takes_flags(program)
            lists = [(kind, name, words) for kind in kinds for name, words in word_lists(kind, flags).items()]
            starts = {words: pool.submit(instructions, [program, *words], "x") for words in {words for _, _, words in lists}}
            print(f"`{program}`, {'the extended' if flags else 'the present'} entry:\n")
            print(f"| Text | Extensions | {' | '.join(sizes)} | Ratio | Ratio | A byte |\n|---|---|{'---|' * len(sizes)}---|---|---|")
            made = [pool.submit(row, program, kind, name, words, starts[words].result()) for kind, name, words in lists]
            for line, is_flagged in (it.result() for it in made):
                print(line, flush=True)
                checked += 1
                found += is_flagged
            print()
    print(f"{len(kinds)} kinds, {checked} lines, {found} with a ratio of more than {MOST}")
    return 1 if found else 0


def beside(program, md4c, kinds):
    print("| Text | 20,000 bytes | 40,000 bytes | Ratio | `cmark` | Ratio | `pulldown-cmark` | Ratio | `md4c` | Ratio |")
    print("|---|---|---|---|---|---|---|---|---|---|")
    for kind in kinds:
        needed = NEEDS.get(kind, [])
        pulldown = [OF_PULLDOWN[word] for word in needed if word in OF_PULLDOWN]
        cells = [f"`{kind}`"]
        for command in ([program, *needed], ["cmark", "--unsafe"], ["pulldown-cmark", *pulldown], [md4c]):
            sizes = (20000, 40000) if command[0] == program else (5000, 10000)
            once, twice = (instructions(command, text(kind, size)) for size in sizes)
            shown = [f"{once / 1e6:.1f}"] if command[0] == program else []
            cells += [*shown, f"{twice / 1e6:.1f}", f"{twice / once:.2f}"]
        print(f"| {' | '.join(cells)} |", flush=True)


def main():
    parser = argparse.ArgumentParser(description=__doc__, formatter_class=argparse.RawDescriptionHelpFormatter)
    parser.add_argument("--check", metavar="PROGRAM", action="append")
    parser.add_argument("--beside", metavar=("PROGRAM", "MD4C"), nargs=2)
    parser.add_argument("--jobs", metavar="N", type=int, default=1)
    parser.add_argument("words", metavar="KIND", nargs="*")
    given = parser.parse_args()
    printed = not (given.check or given.beside)
    kinds = given.words[:1] if printed else given.words
    unknown = [kind for kind in kinds if kind not in FAMILIES]
    if unknown or printed and len(given.words) != 2:
        parser.error(f"{'unknown: ' + ', '.join(unknown) if unknown else 'a kind and a number of bytes'}; kinds: {', '.join(FAMILIES)}")
    if given.check:
        return check(given.check, kinds or list(FAMILIES), given.jobs)
    if given.beside:
        return beside(*given.beside, kinds)
    sys.stdout.write(text(kinds[0], int(given.words[1])))
    return 0


if __name__ == "__main__":
    sys.exit(main())
