#!/usr/bin/env python3
"""Tests .ci/docs on a made-up tree: each check on docs that are right, and on docs with a fault that it finds."""
import unittest

from made_up import MadeUpTree, script

docs = script("docs")

CODE_OF_BASE = """\
//! Kinds of markup.
pub mod kinds;
mod inner {
    // nothing
}

/// Whether a byte is blank, with its clauses.
pub fn is_blank(
    byte: u8,
) -> bool
    ensures { result == BlankByte byte.now }
{
    true
}
"""
CODE_OF_HELLO = """\
//! The smallest program.
use markdown_base::is_blank;

fn main() {
    is_blank(b' ');
}
"""
README = """\
# Markdown

```rust
use markdown_base::is_blank;

fn main() {
```

It calls `is_blank` of `markdown_base`, whose code is `base/src/lib.rt`. This is version 1.2.3.
"""
CALLING = """\
# Calling

```rust
fn main() {
    is_blank(b' ');
```

```text
fn Byte::is_blank(byte: u8) -> bool
    ensures { result == BlankByte byte.now }
```
"""
ARCHITECTURE = """\
# Architecture

The longest path is by the number of crates `base`, `scan`, to `c`.

| Crate | Holds |
|---|---|
| [`markdown_base`](../crates/markdown_base) | kinds |
| [`markdown_scan`](../crates/markdown_scan) | scanners |
| [`markdown_c`](../crates/markdown_c) | calls |
| [`markdown_hello`](../crates/markdown_hello) | a program |

## Where each syntax is

The last column names docs: `header` for the header.

| Syntax | Definition | Docs |
|---|---|---|
| blank | `base/specs/Blank.antt` | README, CALLING, CHANGELOG, base, header |

## Modules

| Module | Holds | State |
|---|---|---|
| `markdown_base`: `kinds` | kinds | |
| `inner` | nothing | |
"""
CONTRIBUTING = """\
# Contributing

### What each edit shows

| Edit | The clause says |
|---|---|
| **Bytes** | |
| `base/kinds_blank_is_none`, `base/kinds_tab_is_none` | which bytes are blank |

## Adding a syntax, an option or an event

1. `base/src/kinds.rt`: `Kind`, `Kind::Superscript`. The variant.
2. `README.md`. What users read.

| Names it | Needs no change, because |
|---|---|
| `CHANGELOG.md` | it has what was |
"""
HEADER = """\
#define MARKDOWN_VERSION "1.2.3"
#define MARKDOWN_VERSION_MAJOR 1
#define MARKDOWN_VERSION_MINOR 2
#define MARKDOWN_VERSION_PATCH 3
"""
THEOREM = """\
3 of CommonMark's 652 examples have the blocks that are written with them.
2 of these examples have, by the definitions, the HTML that is written with them.
"""
COPIER = """\
#!/bin/sh
cd "$(dirname "$0")/.."
for crate in markdown_base markdown_scan markdown_c; do
    mkdir -p "$1/crates/$crate" && cp -r "crates/$crate/src" "$1/crates/$crate/"
done
grep -v hello crates.txt
"""
ENTITIES = """\
#!/bin/sh
cd "$(dirname "$0")/.."
if [ "$1" = --write ]; then echo amp >table; fi
grep -q amp table || { echo "table is not what .ci/entities --write writes"; exit 1; }
"""


class DocsTest(MadeUpTree):
    files = {
        "crates.txt": "markdown_base:\nmarkdown_scan: markdown_base\n"
            "markdown_c staticlib: markdown_base markdown_scan\nmarkdown_hello: markdown_base\n",
        "README.md": README,
        "CHANGELOG.md": "# Changelog\n\n## 1.2.3\n\n- Superscript.\n\n## 1.2.2\n",
        "docs/ARCHITECTURE.md": ARCHITECTURE,
        "docs/CONTRIBUTING.md": CONTRIBUTING,
        "docs/THEOREM.md": THEOREM,
        "docs/commonmark/examples.jsonl": "{}\n{}\n{}\n",
        "docs/use-in": COPIER,
        "include/markdown.h": HEADER,
        "packaging/python/src/provedown/__init__.py": '__version__ = "1.2.3"\n',
        "packaging/README.md": 'one = { path = "../provedown-1.2.3" }\ntwo = { path = "../provedown-sys-1.2.3" }\n',
        "packaging/rust/Cargo.toml": 'version = "1.2.3"\n',
        "crates/markdown/CALLING.md": CALLING,
        "crates/markdown_base/src/lib.rt": CODE_OF_BASE,
        "crates/markdown_base/src/kinds.rt": "pub enum Kind {\n    Superscript,\n}\n",
        "crates/markdown_base/specs/Blank.antt": "-- Blank bytes.\npub BlankByte : Nat -> Bool\n",
        "crates/markdown_base/proofs/Lemmas.antt": "-- Lemmas.\n",
        "crates/markdown_base/must-fail/kinds_blank_is_none.edit": "file: src/kinds.rt\nold: Superscript,\nnew: Other,\n",
        "crates/markdown_base/must-fail/kinds_tab_is_none.edit": "file: src/kinds.rt\nold: Superscript,\nnew: Kind,\n",
        "crates/markdown_base/README.md": "# Base\n\nIts `Kind` is in `markdown_base/src/kinds`.\n",
        "crates/markdown_c/src/lib.rt": 'pub const VERSION: &str = "1.2.3";\n',
        "crates/markdown_hello/src/main.rt": CODE_OF_HELLO,
        "crates/markdown_html_examples/specs/HtmlOfLines.antt": "one = with_html (a)\ntwo = with_html (b)\n",
        "crates/markdown_scan/src/lib.rt": "//! Scanners.\n",
        ".ci/entities": ENTITIES,
        "table": "amp\n",
    }


class Command(DocsTest):
    def test_passes(self):
        status, lines = self.run_main(docs.main)
        self.assertEqual((status, lines), (0, ["what the docs repeat of the repository is as the repository has it"]))

    def test_fails(self):
        self.replace("README.md", "version 1.2.3", "version 1.2.2")
        status, lines = self.run_main(docs.main)
        self.assertEqual((status, lines), (1, ["README.md names the version 1.2.2, not 1.2.3, as CHANGELOG.md does"]))

    def test_writes_the_table_of_entities_and_nothing_else(self):
        self.write("table", "\n")
        status, lines = self.run_main(docs.main, "--write")
        self.assertEqual(status, 0, lines)
        self.assertEqual({path: self.read(path) for path in self.files}, self.files)

    def test_other_words(self):
        status, lines = self.run_main(docs.main, "--all")
        self.assertEqual((status, lines[0]), (2, docs.__doc__.splitlines()[0]))

    def test_each_check_is_run(self):
        checks = {check for name, check in vars(docs).items() if name.startswith("check_")}
        self.assertEqual({*docs.CHECKS}, checks - {docs.check_item, docs.check_left_out})


class Entities(DocsTest):
    check = staticmethod(docs.check_entities)

    def test_passes(self):
        self.assert_passes(self.check)

    def test_another_table(self):
        self.write("table", "\n")
        self.assert_finds(self.check, "table is not what .ci/entities --write writes")

    def test_a_script_that_fails_without_a_message(self):
        self.write(".ci/entities", "#!/bin/sh\nexit 1\n")
        self.assert_finds(self.check, ".ci/entities fails")


class Edits(DocsTest):
    check = staticmethod(docs.check_edits)

    def test_passes(self):
        self.assert_passes(self.check)

    def test_an_edit_without_a_row(self):
        self.write("crates/markdown_scan/must-fail/lib_all.edit", "file: src/lib.rt\n")
        self.assert_finds(self.check, "docs/CONTRIBUTING.md: the edit scan/lib_all has no row in 'What each edit shows'; add what it shows")

    def test_a_row_without_an_edit(self):
        self.replace("docs/CONTRIBUTING.md", "`base/kinds_tab_is_none`", "`base/kinds_tab_is_none`, `base/kinds_gone`")
        self.assert_finds(self.check, "docs/CONTRIBUTING.md: 'What each edit shows' names base/kinds_gone, which is no edit")

    def test_an_edit_with_two_rows(self):
        self.replace("docs/CONTRIBUTING.md", "| `base/kinds_blank_is_none`", "| `base/kinds_tab_is_none`, `base/kinds_blank_is_none`")
        self.assert_finds(self.check, "docs/CONTRIBUTING.md: 'What each edit shows' names base/kinds_tab_is_none more than once")


class Callers(DocsTest):
    check = staticmethod(docs.check_callers)

    def test_passes(self):
        self.assert_passes(self.check)

    def test_code_that_no_caller_has(self):
        self.replace("README.md", "use markdown_base::is_blank;", "use markdown_base::other;")
        self.assert_finds(self.check, "README.md: not in a caller: use markdown_base::other;; a block of Rust is whole lines of")

    def test_half_a_line(self):
        self.replace("crates/markdown/CALLING.md", "fn main() {\n    is_blank", "is_blank")
        self.assert_finds(self.check, "crates/markdown/CALLING.md: not in a caller: is_blank(b' ');; a block")

    def test_no_code(self):
        self.replace("README.md", "```rust", "```text")
        self.assert_finds(self.check, "README.md has no block of Rust")
        self.remove("README.md")
        self.assert_finds(self.check, "README.md has no block of Rust: there is no such file")


class Contracts(DocsTest):
    check = staticmethod(docs.check_contracts)

    def test_passes(self):
        self.assert_passes(self.check)

    def test_another_clause(self):
        self.replace("crates/markdown/CALLING.md", "result == Blank", "result == Other")
        message = "crates/markdown/CALLING.md: not in the library: fn Byte::is_blank(byte: u8) -> bool; quote"
        self.assert_finds(self.check, message)

    def test_another_line(self):
        self.replace("crates/markdown/CALLING.md", "```text\n", "```text\npub mod kinds;\npub mod others;\n")
        self.assert_finds(self.check, "crates/markdown/CALLING.md: not in the library: pub mod others;; quote")


class Paths(DocsTest):
    check = staticmethod(docs.check_paths)

    def test_passes(self):
        self.assert_passes(self.check)

    def test_a_path_of_no_file(self):
        self.write("docs/USING.md", "See `base/src/lib.rt`, `markdown_base/specs`, `base/proofs/Lemmas`, `base/src/gone.rt`.\n")
        self.assert_finds(self.check, "docs/USING.md: there is no base/src/gone.rt in crates/")

    def test_a_path_in_the_readme_of_a_crate(self):
        self.replace("crates/markdown_base/README.md", "/kinds`", "/sorts`")
        self.assert_finds(self.check, "crates/markdown_base/README.md: there is no markdown_base/src/sorts in crates/")


class Names(DocsTest):
    check = staticmethod(docs.check_names)

    def test_passes(self):
        self.assert_passes(self.check)

    def test_names_that_are_nowhere(self):
        self.write("docs/USING.md", "Not `no_name()`, `kinds::NoKind`, but `word`, `Kind`, `BlankByte`, `MARKDOWN_VERSION`.\n")
        self.assert_finds(self.check, "docs/USING.md: NoKind is nowhere in the tree; name", "docs/USING.md: no_name is nowhere")

    def test_names_of_other_places(self):
        self.write("docs/USING.md", "The property `White_Space`.\n")
        self.assert_passes(self.check)


class Modules(DocsTest):
    check = staticmethod(docs.check_modules)

    def test_passes(self):
        self.assert_passes(self.check)

    def test_a_module_that_is_not_there(self):
        self.replace("docs/ARCHITECTURE.md", "`kinds` |", "`kinds`, `sorts` |")
        self.assert_finds(self.check, "docs/ARCHITECTURE.md: markdown_base has no module sorts")

    def test_a_module_that_is_not_named(self):
        self.write("crates/markdown_base/src/sorts.rt", "")
        self.assert_finds(self.check, "docs/ARCHITECTURE.md: does not name the module sorts of markdown_base; add it")

    def test_a_table_whose_first_row_names_no_crate(self):
        self.replace("docs/ARCHITECTURE.md", "| `markdown_base`: `kinds` | kinds | |\n", "")
        self.assert_finds(self.check, "docs/ARCHITECTURE.md: the first row of the table of modules names no crate")

    def test_no_table(self):
        self.replace("docs/ARCHITECTURE.md", "| Module |", "| Part |")
        self.assert_finds(self.check, "docs/ARCHITECTURE.md has no table of modules, which begins '| Module | Holds |'")
        self.remove("docs/ARCHITECTURE.md")
        message = "docs/ARCHITECTURE.md has no table of modules, which begins '| Module | Holds |': there is no such file"
        self.assert_finds(self.check, message)


class DocsOfSyntaxes(DocsTest):
    check = staticmethod(docs.check_docs_of_syntaxes)

    def test_passes(self):
        self.assert_passes(self.check)

    def test_a_document_that_is_not_there(self):
        self.replace("docs/ARCHITECTURE.md", "base, header |", "base, wrapper |")
        self.assert_finds(self.check, "docs/ARCHITECTURE.md: wrapper is no doc of a syntax; name a document in capitals")


class Additions(DocsTest):
    check = staticmethod(docs.check_additions)

    def test_passes(self):
        self.assert_passes(self.check)

    def test_an_item_without_a_file(self):
        self.replace("docs/CONTRIBUTING.md", "`README.md`. What", "What")
        self.assert_finds(self.check, "docs/CONTRIBUTING.md: no file in: What users read.")

    def test_a_file_that_is_not_there(self):
        self.replace("docs/CONTRIBUTING.md", "`README.md`. What", "`docs/GONE.md`: `Kind`. What")
        self.assert_finds(self.check, "docs/CONTRIBUTING.md: there is no docs/GONE.md")

    def test_a_name_that_the_file_has_not(self):
        self.replace("docs/CONTRIBUTING.md", "`Kind`,", "`Sort`,")
        self.assert_finds(self.check, "docs/CONTRIBUTING.md: base/src/kinds.rt does not name Sort")

    def test_a_file_that_is_left_out(self):
        self.write("include/more.h", "/* superscript */\n")
        message = "docs/CONTRIBUTING.md: no list of an addition has include/more.h, which names superscript; add it to an item"
        self.assert_finds(self.check, message)

    def test_an_exception_that_is_none(self):
        self.replace("docs/CONTRIBUTING.md", "| `CHANGELOG.md` |", "| `CHANGELOG.md` | it |\n| `README.md` |")
        message = "docs/CONTRIBUTING.md: README.md, which needs no change, does not name superscript; take its row out"
        self.assert_finds(self.check, message)

    def test_no_section(self):
        self.write("docs/CONTRIBUTING.md", "# Contributing\n")
        message = "docs/CONTRIBUTING.md has no list in a section 'Adding a syntax, an option or an event'"
        left_out = "docs/CONTRIBUTING.md: no list of an addition has"
        files = ("CHANGELOG.md", "crates/markdown_base/src/kinds.rt")
        self.assert_finds(self.check, message, *(f"{left_out} {path}, which" for path in files))

    def test_a_section_before_others(self):
        self.write("docs/CONTRIBUTING.md", CONTRIBUTING + "\n## Names\n\n1. An item without a file.\n")
        self.assert_passes(self.check)


class Widths(DocsTest):
    check = staticmethod(docs.check_widths)

    def test_passes(self):
        self.write("crates/markdown_scan/src/lib.rt", "// " + "a" * 100 + "\n")
        self.write("crates/markdown_base/proofs/Lemmas.antt", "-- " + "a" * 117 + "\n")
        self.assert_passes(self.check)

    def test_a_clause(self):
        self.write("crates/markdown_scan/src/lib.rt", f"fn f()\n    ensures {{\n        {'a' * 93}\n    }}\n{{}}\n")
        self.assert_finds(self.check, "crates/markdown_scan/src/lib.rt:3 has more than 100 columns: 101")

    def test_definitions_and_proofs(self):
        paths = ("crates/markdown_base/specs/Blank.antt", "crates/markdown_base/proofs/Lemmas.antt")
        for path in paths:
            self.write(path, f"\n-- {'a' * 118}\n")
        self.assert_finds(self.check, *(f"{path}:2 has more than 120 columns: 121" for path in paths))


class CopiedCrates(DocsTest):
    check = staticmethod(docs.check_copied_crates)

    def test_passes(self):
        self.assert_passes(self.check)

    def test_a_crate_that_is_not_copied(self):
        self.replace("docs/use-in", "markdown_base markdown_scan", "markdown_base")
        self.assert_finds(self.check, "docs/use-in does not copy markdown_c and what it uses, or does not print")

    def test_a_line_too_much(self):
        self.replace("docs/use-in", "grep -v hello", "cat")
        self.assert_finds(self.check, "docs/use-in does not copy markdown_c and what it uses, or does not print")

    def test_no_such_script(self):
        self.remove("docs/use-in")
        self.assert_finds(self.check, "there is no docs/use-in")


class OrderOfCrates(DocsTest):
    check = staticmethod(docs.check_order_of_crates)
    row = "| [`markdown_base`](../crates/markdown_base) | kinds |\n"

    def test_passes(self):
        self.assert_passes(self.check)

    def test_a_crate_without_a_row(self):
        self.replace("docs/ARCHITECTURE.md", "| [`markdown_hello`](../crates/markdown_hello) | a program |\n", "")
        self.assert_finds(self.check, "docs/ARCHITECTURE.md, the crates: lacks markdown_hello; its row begins")

    def test_a_crate_before_one_that_it_uses(self):
        self.replace("docs/ARCHITECTURE.md", self.row, "")
        self.replace("docs/ARCHITECTURE.md", "| [`markdown_c`]", f"{self.row}| [`markdown_c`]")
        self.assert_finds(self.check, "docs/ARCHITECTURE.md, the crates: markdown_scan is before markdown_base, which it uses")


class LongestPaths(DocsTest):
    check = staticmethod(docs.check_longest_paths)

    def test_passes(self):
        self.assert_passes(self.check)

    def test_a_shorter_path(self):
        self.replace("docs/ARCHITECTURE.md", "`scan`, to", "to")
        self.assert_finds(self.check, "docs/ARCHITECTURE.md: base, to c is no longest path; one is base, scan, to c")

    def test_no_path(self):
        self.replace("docs/ARCHITECTURE.md", "`base`, `scan`, to `c`", "`scan`, `base`, to `hello`")
        self.assert_finds(self.check, "docs/ARCHITECTURE.md: scan, base, to hello is no longest path; one is base, to hello")

    def test_a_crate_that_is_not_there(self):
        self.replace("docs/ARCHITECTURE.md", "to `c`", "to `d`")
        self.assert_finds(self.check, "docs/ARCHITECTURE.md: base, scan, to d is no longest path: crates.txt has no markdown_d")

    def test_none_is_named(self):
        self.replace("docs/ARCHITECTURE.md", "by the number of crates", "by crates")
        self.assert_finds(self.check, "docs/ARCHITECTURE.md names no longest path, as 'by the number of crates")


class Versions(DocsTest):
    check = staticmethod(docs.check_versions)

    def test_passes(self):
        self.assert_passes(self.check)

    def test_another_version(self):
        for path in ("README.md", "packaging/rust/Cargo.toml", "crates/markdown_c/src/lib.rt"):
            self.replace(path, "1.2.3", "1.2.2")
        self.replace("packaging/README.md", "sys-1.2.3", "sys-1.2.2")
        self.replace("include/markdown.h", "PATCH 3", "PATCH 2")
        paths = ["README.md", "packaging/rust/Cargo.toml", "packaging/README.md", "crates/markdown_c/src/lib.rt"]
        paths += ["include/markdown.h, in numbers"]
        self.assert_finds(self.check, *(f"{path} names the version 1.2.2, not 1.2.3, as CHANGELOG.md" for path in paths))

    def test_no_version(self):
        self.replace("README.md", "This is version 1.2.3.", "")
        self.remove("packaging/python/src/provedown/__init__.py")
        paths = ("README.md", "packaging/python/src/provedown/__init__.py")
        self.assert_finds(self.check, *(f"{path} names no version" for path in paths))

    def test_no_version_in_the_changelog(self):
        self.write("CHANGELOG.md", "# Changelog\n")
        self.assert_finds(self.check, "CHANGELOG.md has no section of a version, as '## 1.2.3'")


class CountsOfExamples(DocsTest):
    check = staticmethod(docs.check_counts_of_examples)

    def test_passes(self):
        self.assert_passes(self.check)

    def test_another_number(self):
        self.replace("docs/THEOREM.md", "3 of CommonMark's", "4 of CommonMark's")
        self.replace("docs/THEOREM.md", "2 of these", "3 of these")
        messages = ("3 examples, not 4, have the blocks", "2 examples, not 3, have by the definitions")
        self.assert_finds(self.check, *(f"docs/THEOREM.md: {message}" for message in messages))

    def test_docs_without_numbers(self):
        self.remove("docs/THEOREM.md")
        self.assert_passes(self.check)


if __name__ == "__main__":
    unittest.main()
