"""Whether programs write the same bytes as those built before a change: `differential.py BEFORE AFTER [--count N]
[--seed SEED] [--sets N] [--rows FILE] [--jobs N]`.

BEFORE and AFTER are folders that hold `markdown_html` and `markdown_events`, each a program, or a folder with the program
in its `out`, as `crates`. Both programs run on the texts of the benchmarks, on random documents of blocks and random lines
of inline markup, of which many are joined to one text, on the stored input of the programs, and on the rows of `--rows`, a
file of JSON: a list of objects, each with a `text`. Each text is run with no words, with each word alone, with all words,
with all but one, and with `--sets` random sets; a text of more than 20,000 bytes with none, all and two sets. What is
compared is standard output and the exit status. Where they differ, words and text are made few and small by deletion, and printed.
The last line counts texts, runs and faults, and the exit status is 1 where there is a fault.
"""
import argparse
import concurrent.futures
import json
import os
import random
import subprocess
import sys

sys.dont_write_bytecode = True
import hostile
import random_blocks

HERE = os.path.dirname(os.path.abspath(__file__))
PROGRAMS = ("markdown_html", "markdown_events")
WORDS = (
    "tables footnotes old-footnotes strikethrough tasklists smart heading-attributes yaml pluses math gfm definitions "
    "superscript subscript wikilinks"
).split()
JOINED = 40
LONG = 20000
# markup that may begin or end something, beside words
MARKS = (
    "* ** *** _ __ ~ ~~ ^ ` `` $ $$ [ ] ![ [^ [[ ]] ( ) < > \\ \\\\ & ; | : :- -: - -- --- + +++ # ## = === . .. ... 1. \" ' ! @ { } "
    "[a] [^a] [[a|b]] [a](b) ![a](b) <a> </a> <!-- --> <http://a> <a@b.c> &amp; &copy; &#65; &#x41; &ngE; [ ] [x] [!NOTE] {#a} "
    "[a]:b [^a]:b a|b -|- |a| |-| :a"
).split(" ")
SPACES = (" ", " ", "", "", "", "  ", "\t", "\n", "\n", "  \n", "\\\n", "\r\n", "\n\n", "\n> ", "\n- ", "\n    ")


def made_by(script, size):
    made = subprocess.run([sys.executable, os.path.join(HERE, script), str(size)], capture_output=True, text=True, check=True)
    return made.stdout


def inline(rng):
    """A few marks and words with white space between."""
    parts = [rng.choice(MARKS) if rng.random() < 0.6 else rng.choice(("a", "b", "ä", "1")) for _ in range(rng.randint(1, 14))]
    return "".join(part + rng.choice(SPACES) for part in parts)


def joined(make, count, seed):
    """Random texts, some alone and many joined, each with its name."""
    for first in range(0, count, JOINED):
        made = [make(random.Random(f"{seed}.{number}")) for number in range(first, min(first + JOINED, count))]
        yield f"{make.__name__} {first}", made[0]
        yield f"{make.__name__} {first} and those after it", "\n\n***\n\n".join(made)


def texts(count, seed, rows):
    """The texts, each with its name."""
    for kind in hostile.FAMILIES:
        for size in (10, 300, 3000):
            yield f"{kind} {size}", hostile.text(kind, size)
    for script in ("prose.py", "mixed.py", "documents.py"):
        for size in (3000, 300000):
            yield f"{script} {size}", made_by(script, size)
    for program in PROGRAMS:
        with open(os.path.join(HERE, "../../crates", program, "stdin"), newline="") as file:
            yield program, file.read()
    for number, row in enumerate(rows):
        yield f"row {row.get('no', number)}", row["text"]
    yield from joined(random_blocks.document, count, seed)
    yield from joined(inline, count, seed)


def sets_of(name, text, count):
    """The sets of words that a text is run with."""
    rng = random.Random(name)
    some = [[word for word in WORDS if rng.random() < 0.5] for _ in range(count)]
    if len(text) > LONG:
        return [[], WORDS, *some[:2]]
    return [[], WORDS, *([word] for word in WORDS), *([it for it in WORDS if it != word] for word in WORDS), *some]


def program_in(folder, name):
    """The path of a program in a folder, or in the folder of its crate there."""
    places = [os.path.join(folder, name), os.path.join(folder, name, "out", name)]
    return next((it for it in places if os.path.isfile(it)), None) or sys.exit(f"{folder} has no program {name}")


def written(program, words, text):
    ran = subprocess.run([program, *words], input=text.encode(), stdout=subprocess.PIPE, stderr=subprocess.DEVNULL, timeout=120)
    return ran.stdout, ran.returncode


def fault(pairs, words, text):
    """The name of a program that writes a text otherwise than before."""
    return next((name for name, before, after in pairs if written(before, words, text) != written(after, words, text)), None)


def main():
    parser = argparse.ArgumentParser()
    parser.add_argument("before")
    parser.add_argument("after")
    parser.add_argument("--count", type=int, default=4000)
    parser.add_argument("--seed", default="1")
    parser.add_argument("--sets", type=int, default=8)
    parser.add_argument("--rows")
    parser.add_argument("--jobs", type=int, default=os.cpu_count())
    options = parser.parse_args()
    pairs = [(name, program_in(options.before, name), program_in(options.after, name)) for name in PROGRAMS]
    rows = []
    if options.rows:
        with open(options.rows) as file:
            rows = json.load(file)
    count = runs = faults = 0

    def compared(given):
        name, text = given
        sets = sets_of(name, text, options.sets)
        return name, text, len(sets), next((words for words in sets if fault(pairs, words, text)), None)

    with concurrent.futures.ThreadPoolExecutor(options.jobs) as pool:
        for name, text, tried, words in pool.map(compared, texts(options.count, options.seed, rows)):
            count += 1
            runs += tried * len(pairs)
            if words is not None:
                faults += 1
                for word in WORDS:
                    less = [it for it in words if it != word]
                    words = less if fault(pairs, less, text) else words
                text = random_blocks.small(text, lambda less: fault(pairs, words, less) is not None)
                print(f"{fault(pairs, words, text)} {' '.join(words)} on {name}: {text!r}", flush=True)
    print(f"{count} texts, {runs} runs of each, {faults} faults")
    return 1 if faults else 0


if __name__ == "__main__":
    sys.exit(main())
