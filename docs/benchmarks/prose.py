"""Prose for benchmarks: paragraphs of the same words in another order each time, the same on each run."""
import random
import sys

WORDS = (
    "the quick brown fox jumps over a lazy dog while seven wizards quietly pack five dozen boxes "
    "of liquor jugs and nobody minds"
).split()


def paragraph(rng):
    lines = [" ".join(rng.choice(WORDS) for _ in range(12)) for _ in range(rng.randint(1, 6))]
    return "\n".join(lines) + "\n\n"


def main():
    size = int(sys.argv[1])
    rng = random.Random(1)
    written = 0
    while written < size:
        text = paragraph(rng)[: size - written]
        sys.stdout.write(text)
        written += len(text)


main()
