"""Markdown as people write it: `documents.py [--links | --tables] SIZE [FOLDER ..]` prints files of this machine, cut to a size.

They are the Markdown files below the folders, gzipped ones too: what Debian's packages and the toolchain bring, unless
folders are named. Equal files count once, and the hash of its content gives each its place, so the same files make the
same text wherever they are. With `--links`, those with the most links for each byte come first, and with `--tables` those with
the most delimiter rows of tables, alone. What is not UTF-8 is left out, and so is what `cmark` leaves open at its end, as a
fence that is not closed, since it would take in all files behind it. Where there are too few bytes the text is repeated, as
standard error then says.
"""
import gzip
import hashlib
import os
import re
import subprocess
import sys

TOOLCHAIN = os.path.dirname(subprocess.run(["rt", "doc"], stdout=subprocess.PIPE, text=True, check=True).stdout.strip())
FOLDERS = ["/usr/share", "/usr/lib", os.path.expanduser("~/.pyenv"), os.path.expanduser("~/.rustup"), TOOLCHAIN]
ENDINGS = (".md", ".markdown", ".md.gz", ".markdown.gz")
SORTED_BY = {
    "--links": re.compile(rb"\]\(|\]\[|\]:|<https?:"),
    "--tables": re.compile(rb"^ *\|? *:?-+:? *(?:\| *:?-+:? *)+\|? *$|^ *\| *:?-+:? *\| *$", re.MULTILINE),
}


def paths(folders):
    for folder in folders:
        for place, _, names in os.walk(folder):
            for name in names:
                path = os.path.join(place, name)
                if name.lower().endswith(ENDINGS) and os.path.isfile(path):
                    yield path


def contents(path):
    with (gzip.open if path.endswith(".gz") else open)(path, "rb") as file:
        return file.read().replace(b"\r\n", b"\n").strip(b"\n") + b"\n\n"


def is_text(content):
    try:
        return "\0" not in content.decode()
    except UnicodeDecodeError:
        return False


def is_closed(content):
    """Whether a heading after it is one."""
    made = subprocess.run(["cmark", "--unsafe"], input=content + b"# end\n", stdout=subprocess.PIPE, check=True)
    return made.stdout.endswith(b"\n<h1>end</h1>\n")


def density(searched, content):
    return len(searched.findall(content)) / len(content)


def main():
    words = sys.argv[1:]
    searched = SORTED_BY.get(words[0])
    size, *folders = words[1:] if searched else words
    found = {hashlib.sha256(it).digest(): it for it in map(contents, paths(folders or FOLDERS))}
    files = [found[it] for it in sorted(found)]
    if searched:
        files.sort(key=lambda it: density(searched, it), reverse=True)
    if words[0] == "--tables":
        files = [it for it in files if searched.search(it)]
    text, size = bytearray(), int(size)
    for file in files:
        if len(text) < size and is_text(file) and is_closed(file):
            text += file
    if len(text) < size:
        print(f"{len(text)} bytes, repeated", file=sys.stderr)
        text *= -(-size // len(text))
    cut = text.rfind(b"\n", 0, size) + 1
    sys.stdout.buffer.write(text[:cut])


main()
