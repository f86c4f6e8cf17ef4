"""Reads the repository for `.ci/meaning` and `.ci/docs`: its crates, its docs, and its sources item by item.

An item of a source is read by the formatter's layout: it begins at the left margin, and a member of an impl or a trait
begins four columns in.
"""
import re
import textwrap
from functools import cache, cached_property
from pathlib import Path
from typing import NamedTuple

# what the docs may omit of a crate's name
PREFIX = "markdown_"
# the kinds of sources, by the folders of a crate
SUFFIXES = {"src": ".rt", "specs": ".antt", "proofs": ".antt"}


class Tree:
    """The repository below a folder, its root."""

    def __init__(self, root):
        self.root = Path(root).resolve()
        self.crates_folder = self.root / "crates"

    @cached_property
    def crates(self):
        """The names of all crates, sorted: of the folders with code."""
        return sorted(folder.name for folder in self.crates_folder.iterdir() if (folder / "src").is_dir())

    @cached_property
    def uses(self):
        """The crates of crates.txt, in its order, each with those of the repository that it uses."""
        lines = re.findall(r"(?m)^(\w+)(?: staticlib)?:(.*)", self.text("crates.txt"))
        return {crate: [name for name in used.split() if name in self.crates] for crate, used in lines}

    def sources(self, *kinds):
        """The sources of all crates in the folders of some kinds: `src`, `specs` and `proofs`."""
        folders = [(self.crates_folder / crate / kind, SUFFIXES[kind]) for kind in kinds for crate in self.crates]
        return [file for folder, suffix in folders for file in sorted(folder.rglob(f"*{suffix}"))]

    def docs(self):
        """The docs: the Markdown files at the root, in docs/ and at the top of each crate."""
        return [file for pattern in ("*.md", "docs/*.md", "crates/*/*.md") for file in sorted(self.root.glob(pattern))]

    def text(self, path):
        """The text of a file, by its path from the root on; empty where there is no such file."""
        file = self.root / path
        return file.read_text() if file.is_file() else ""

    def path(self, file):
        """The path of a file from the root on."""
        return file.relative_to(self.root).as_posix()

    def path_in_crates(self, file):
        """The path of a file from crates/ on."""
        return file.relative_to(self.crates_folder).as_posix()

    def file_of(self, path):
        """The file of a path of the docs, or nothing: from the root on, or below crates/, with or without `markdown_`."""
        places = (self.root / path, self.crates_folder / path, self.crates_folder / f"{PREFIX}{path}")
        return next((place for place in places if place.is_file()), None)

    def has_no(self, path, what):
        """The message for a document without the part that a check reads, and perhaps without the file itself."""
        return f"{path} has no {what}" + ("" if (self.root / path).is_file() else ": there is no such file")


def report(wrong, right):
    """Prints the messages for what is wrong, or that all is right; returns the status to end with."""
    print(*(wrong or [right]), sep="\n")
    return int(bool(wrong))


def section(text, heading):
    """The text of a document below a heading `## ..`, up to the next; empty where there is none."""
    found = re.search(rf"(?ms)^## {re.escape(heading)}\n(.*?)(?=^## |\Z)", text)
    return found[1] if found else ""


def syntaxes(tree):
    """The section of docs/ARCHITECTURE.md on the syntaxes: its text, and the rows of its tables."""
    text = section(tree.text("docs/ARCHITECTURE.md"), "Where each syntax is")
    return text, re.findall(r"(?m)^\|.*", text)


def spec_paths(text):
    """The files of specs/ that a text of the docs names, as `base/specs/Item.antt`."""
    return re.findall(r"`(\w+/specs/[\w/]+\.antt)`", text)


def items_of(text, comment, continuation):
    """The items of a source, without their comments and attributes: each from a line at the left margin to the next.

    A line at the left margin that matches `continuation`, or that comes after an attribute, goes on with the item before.
    """
    items = []
    for line in text.split("\n"):
        if line.lstrip().startswith(comment):
            continue
        if items and (line[:1] in ("", " ") or re.match(continuation, line) or re.fullmatch(r"(?s)#\[.*\]\n*", items[-1])):
            items[-1] += "\n" + line
        elif line:
            items.append(line)
    return [re.sub(r"(?s)\A(#\[(?!cfg).*?\]\n\s*)+", "", item).strip() for item in items]


def code_items(text):
    """The items of a file of src/."""
    return items_of(text, "//", r"[)}>{]|where")


def logic_items(text):
    """The items of a file of specs/."""
    return items_of(text, "--", r"[)}]")


def members_of(item):
    """The members of an impl or a trait."""
    return code_items("\n".join(line[4:] for line in item.split("\n")[1:] if line[:4].isspace()))


class Place(NamedTuple):
    """Where a name is defined: a file of specs/, and the name there, or no name for the file itself."""

    file: Path
    name: str


IMPORT = re.compile(
    r"(?:unfoldable )?(?:pub )?(?:ghost )?use Rattle\.(?P<crate>\w+)\.specs\.(?P<module>[\w.]+?)"
    r"(?:\.\{(?P<names>.*)\}| as (?P<new>[^\s;]+))?;?\Z"
)


def imports_of(tree, items):
    """What `use` lines import of specs/, as `Rattle.CRATE.specs.A.B.{c, d as e}`: each name, with its place."""
    found = {}
    for item in items:
        line = IMPORT.match(re.sub(r"\s+", " ", item))
        if not line:
            continue
        file = tree.crates_folder / line["crate"] / "specs" / (line["module"].replace(".", "/") + ".antt")
        if file.is_file():
            for one in (line["names"] or "").split(","):
                name, _, new = one.strip().partition(" as ")
                found[new or name or line["new"] or line["module"].rpartition(".")[2]] = Place(file, name)
    return found


class Definition(NamedTuple):
    """A definition: its name, with those of its constructors, and its text."""

    names: list
    text: str


DEFINITION = re.compile(r"(?:(?:pub|abbrev|unfoldable|opaque)\s+)*(?:(record|data) (\S+)|([^\s(){}]+) :\s)")


def definitions_of(items, around=""):
    """The definitions among the items of a file of specs/. Those in a module have its head, `around`, before their texts."""
    found = []
    for item in items:
        head = DEFINITION.match(item)
        if item.startswith("module "):
            parameters, _, body = item.partition(" where\n")
            found += definitions_of(logic_items(textwrap.dedent(body)), around + parameters)
        elif head:
            constructors = re.findall(r"(?m)^ +(?:pub )?(\S+) :", item) if head[1] == "data" else []
            found.append(Definition([head[2] or head[3], *constructors], around + item))
        elif found and not re.match(r"(pub )?(use|mod|unfolding)\b", item):
            # (a clause of the definition before it)
            found[-1] = Definition(found[-1].names, found[-1].text + "\n" + item)
    return found


class SpecFile(NamedTuple):
    """A file of specs/: the text of each name that it defines, and the place of each name that these texts can have."""

    texts: dict
    scope: dict


@cache
def spec_file(tree, file):
    """Reads a file of specs/."""
    items = logic_items(file.read_text())
    texts = {name: definition.text for definition in definitions_of(items) for name in definition.names}
    return SpecFile(texts, {**imports_of(tree, items), **{name: Place(file, name) for name in texts}})


def modules_of(file, below, shown=None):
    """A module of the code and those in it: the items of each, and which of its names other crates reach (None: all public)."""
    items = code_items(file.read_text())
    yield items, shown
    exported = re.findall(r"(?m)^pub use (\w+)::(\w+|\{[^}]*\});", "\n".join(items))
    exports = {module: re.findall(r"\w+", names) for module, names in exported}
    for item in items:
        module = re.match(r"(pub )?mod (\w+);", item)
        if module:
            is_open = shown is None and (module[1] or file.name == "main.rt")
            inner = None if is_open else exports.get(module[2], [])
            yield from modules_of(below / f"{module[2]}.rt", below / module[2], inner)


class Head(NamedTuple):
    """What an item of the code is: its `pub`, its kind, the trait that it implements, and its name or type."""

    visibility: str
    kind: str
    trait: str
    name: str


HEAD = re.compile(
    r"(pub(?:\(.*?\))? )?(?:unsafe |const |extern \S+ )*(fn|struct|enum|trait|impl)\b ?"
    r"(?:(.*?) for )?(?:&(?:'\w+ )?(?:mut )?)?(?:\w+::)*(\w+)"
)


def head_of(item):
    """The head of an item of the code, without generic parameters; nothing for a `use` and the like."""
    line = re.sub(r"\s+", " ", re.split(r"[{;]", item)[0].replace("->", ""))
    while re.search(r"<[^<>]*>", line):
        line = re.sub(r"<[^<>]*>", "", line)
    found = HEAD.match(line)
    return Head(*(part or "" for part in found.groups())) if found else None
