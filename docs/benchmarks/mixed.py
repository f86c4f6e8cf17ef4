"""Documents for benchmarks in which all constructs of CommonMark stand, the same on each run: `mixed.py BYTES`."""
import random
import sys

WORDS = (
    "the quick brown fox jumps over a lazy dog while seven wizards quietly pack five dozen boxes "
    "of liquor jugs and nobody minds"
).split()


def words(rng, count):
    return " ".join(rng.choice(WORDS) for _ in range(count))


def span(rng):
    """A few words, as one of the inline constructs."""
    text = words(rng, rng.randint(1, 4))
    return rng.choice(
        (
            f"*{text}*",
            f"**{text}**",
            f"_{text}_",
            f"***{text}***",
            f"`{text}`",
            f"`` {text} ` ``",
            f"[{text}](https://example.com/{rng.randint(1, 999)})",
            f'[{text}](</a b> "a title")',
            f"![{text}](image.png 'another')",
            f"[{text}][known]",
            f"[{text}][unknown]",
            "[known]",
            f"<https://example.com/{rng.randint(1, 999)}>",
            "<someone@example.com>",
            f"<b class='x'>{text}</b>",
            f"{text} &amp; {text} &lt; &#33; &unknown;",
            f'"{text}" it\'s {text}\\*',
            f"{text} < {text} > {text}",
        )
    )


def line(rng):
    parts = [words(rng, rng.randint(4, 9))]
    if rng.random() < 0.5:
        parts += [span(rng), words(rng, rng.randint(1, 4))]
    return " ".join(parts)


def paragraph(rng):
    lines = [line(rng) for _ in range(rng.randint(1, 6))]
    return rng.choice(("\n", "\n", "\n", "  \n", "\\\n")).join(lines) + "\n"


def behind(prefix, text):
    """A text with a prefix before each line that is not blank."""
    return "".join(prefix + each if each.strip() else each for each in text.splitlines(True))


def heading(rng):
    text = words(rng, 5)
    return rng.choice((f"# {text}\n", f"### {text} ###\n", f"{text}\n=====\n", f"{text}\n---\n"))


def code(rng):
    lines = "".join(words(rng, 6) + " <tag> & more\n" for _ in range(rng.randint(1, 8)))
    return rng.choice((f"```rust\n{lines}```\n", f"~~~\n{lines}~~~\n", behind("    ", lines)))


def items(rng, depth):
    """A list, tight or loose, with bullets or numbers."""
    marker, parts = rng.choice(("- ", "* ", "1. ")), []
    for _ in range(rng.randint(2, 5)):
        inside = line(rng) + "\n"
        if depth > 0 and rng.random() < 0.3:
            inside += items(rng, depth - 1)
        indented = behind(" " * len(marker), inside)
        parts.append(marker + indented[len(marker) :])
    return rng.choice(("", "\n")).join(parts)


def quote(rng):
    return behind("> ", rng.choice((paragraph, code, lambda rng: items(rng, 1)))(rng))


def html(rng):
    return f"<div class='note'>\n{line(rng)}\n</div>\n"


def block(rng):
    kinds = (paragraph, heading, code, lambda rng: items(rng, 2), quote, html, lambda rng: "***\n")
    return rng.choices(kinds, weights=(12, 3, 2, 4, 2, 1, 1))[0](rng) + "\n"


def main():
    size = int(sys.argv[1])
    rng = random.Random(1)
    written = sys.stdout.write('[known]: https://example.com/known "known"\n\n')
    while written < size:
        written += sys.stdout.write(block(rng)[: size - written])


main()
