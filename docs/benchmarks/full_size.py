"""Texts of full size, each of one kind of markup: `full_size.py PROGRAM` prints a table.

Each text is run as it is for its seconds and its memory, the best and the most of three runs. Memory is the peak without the
HTML, for each byte of the text. What twice the text costs is counted in instructions, by valgrind: at a tenth of the size
and at twice that, since valgrind is slow, or for nested texts at their size and at twice that.
"""
import os
import subprocess
import sys
import tempfile
import time

sys.dont_write_bytecode = True
from hostile import instructions

NESTED = 100000
LONG = 10000000


def nested(before, after=""):
    return lambda times: before * times + "a" + after * times + "\n"


def repeated(part):
    return lambda size: part * (size // len(part))


# what is repeated, how often or up to which size, and the extensions that it needs
TEXTS = {
    "100,000 nested block quotes": (nested("> "), NESTED, ()),
    "100,000 nested lists": (nested("- "), NESTED, ()),
    "100,000 links in links": (nested("[", "](b)"), NESTED, ()),
    "100,000 images in images": (nested("![", "](b)"), NESTED, ()),
    "10 MB of `[`": (repeated("["), LONG, ()),
    "10 MB of `*a_ `": (repeated("*a_ "), LONG, ()),
    "10 MB of `_a ` and then `a* `": (lambda size: "_a " * (size // 6) + "a* " * (size // 6), LONG, ()),
    "10 MB of `![`": (repeated("!["), LONG, ()),
    "10 MB of backticks": (repeated("`"), LONG, ()),
    "10 MB of `<`": (repeated("<"), LONG, ()),
    "10 MB of `$`": (repeated("$"), LONG, ("math",)),
    "10 MB of `[[a\\|`": (repeated("[[a|"), LONG, ("wikilinks",)),
    "10 MB of `~^`": (repeated("~^"), LONG, ("strikethrough", "subscript", "superscript")),
    "10 MB of `&`": (repeated("&"), LONG, ()),
    "10 MB of tabs": (repeated("\t"), LONG, ()),
    "10 MB of lines `[a]: `": (repeated("[a]: \n"), LONG, ()),
    "10 MB of lines `> `": (repeated("> \n"), LONG, ()),
}


def run(command, text):
    """Seconds of the processor, the peak of memory in bytes, and the number of bytes written."""
    with tempfile.TemporaryFile() as given, tempfile.TemporaryFile() as made:
        given.write(text)
        given.seek(0)
        ran = subprocess.Popen(command, stdin=given, stdout=made)
        _, status, used = os.wait4(ran.pid, 0)
        ran.returncode = os.waitstatus_to_exitcode(status)
        if ran.returncode != 0:
            sys.exit(f"{command} ended with status {ran.returncode}")
        return used.ru_utime + used.ru_stime, used.ru_maxrss * 1024, os.fstat(made.fileno()).st_size


def main(program):
    print("| Text | Bytes | HTML | Seconds | Memory over the HTML, by byte of text | Twice the text |")
    print("|---|---|---|---|---|---|")
    for name, (make, count, extensions) in TEXTS.items():
        command = [program, *extensions]
        text = make(count).encode()
        runs = [run(command, text) for _ in range(3)]
        seconds, peak, html = min(r[0] for r in runs), max(r[1] for r in runs), runs[0][2]
        once = count if count == NESTED else count // 10
        ratio = instructions(command, make(2 * once)) / instructions(command, make(once))
        memory = (peak - html) / len(text)
        cells = [name, f"{len(text):,}", f"{html:,}", f"{seconds:.1f}", f"{memory:.1f}", f"{ratio:.2f}"]
        print(f"| {' | '.join(cells)} |", flush=True)


main(sys.argv[1])
