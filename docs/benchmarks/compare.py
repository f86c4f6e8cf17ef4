"""The program beside `cmark`, `pulldown-cmark` and `md4c` on the same texts, as a table: `compare.py PROGRAM [TOOL]`.

Instructions are counted by valgrind; seconds are the best of seven runs, memory the most of one. `md4c` is a library, so
`md4c.c` is compiled over it. On documents with tables these are enabled, in the program `markdown`, if it is given as TOOL, and
in `cmark-gfm` in place of `cmark`.
"""
import os
import re
import subprocess
import sys
import tempfile
import time

HERE = os.path.dirname(os.path.abspath(__file__))
TEXTS = {
    "10 MB of prose": ["prose.py", "10000000"],
    "10 MB of mixed documents": ["mixed.py", "10000000"],
    "1 MB of links": ["hostile.py", "links", "1000000"],
    "10 MB of documents": ["documents.py", "10000000"],
    "1 MB of documents with links": ["documents.py", "--links", "1000000"],
}
WITH_TABLES = {"1 MB of documents with tables": ["documents.py", "--tables", "1000000"]}


def instructions(program, text):
    counted = ["valgrind", "--tool=callgrind", "--callgrind-out-file=/dev/null", *program]
    with open(text) as given:
        said = subprocess.run(counted, stdin=given, stdout=subprocess.DEVNULL, stderr=subprocess.PIPE, text=True, check=True)
    return int(re.search(r"Collected : (\d+)", said.stderr)[1])


def seconds(program, text):
    best = float("inf")
    for _ in range(7):
        with open(text) as given:
            start = time.monotonic()
            subprocess.run(program, stdin=given, stdout=subprocess.DEVNULL, check=True)
            best = min(best, time.monotonic() - start)
    return best


def memory(program, text):
    """Bytes, by `time`: a child of this process would be counted with this process's own pages."""
    counted = ["/usr/bin/time", "-f", "%M", *program]
    with open(text) as given:
        said = subprocess.run(counted, stdin=given, stdout=subprocess.DEVNULL, stderr=subprocess.PIPE, text=True, check=True)
    return int(said.stderr.split()[-1]) * 1024


def show(name, generated, text, programs):
    """Prints a row of the table for each program, on a text that a script generates."""
    script, *words = generated
    with open(text, "w") as made:
        subprocess.run([sys.executable, os.path.join(HERE, script), *words], stdout=made, check=True)
    ours = instructions(programs["ours"], text)
    for program, words in programs.items():
        count = instructions(words, text)
        most = memory(words, text) / os.path.getsize(text)
        cells = [name, program, f"{count / 1e6:.0f}", f"{ours / count:.2f}", f"{seconds(words, text):.2f}", f"{most:.1f}"]
        print(f"| {' | '.join(cells)} |", flush=True)


def main():
    print("| Text | Program | Instructions in millions | Ours to it | Seconds | Memory to the text |")
    print("|---|---|---|---|---|---|")
    with tempfile.TemporaryDirectory() as room:
        text, md4c = os.path.join(room, "text.md"), os.path.join(room, "md4c")
        subprocess.run(["cc", "-O2", os.path.join(HERE, "md4c.c"), "-lmd4c-html", "-o", md4c], check=True)
        programs = {
            "ours": [sys.argv[1]],
            "`cmark`": ["cmark", "--unsafe"],
            "`pulldown-cmark`": ["pulldown-cmark"],
            "`md4c`": [md4c],
        }
        for name, generated in TEXTS.items():
            show(name, generated, text, programs)
        if len(sys.argv) < 3:
            return
        with_tables = {
            "ours": [sys.argv[2], "-e", "tables"],
            "`cmark-gfm`": ["cmark-gfm", "--unsafe", "-e", "table"],
            "`pulldown-cmark`": ["pulldown-cmark", "-T"],
        }
        for name, generated in WITH_TABLES.items():
            show(name, generated, text, with_tables)


main()
