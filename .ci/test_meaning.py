#!/usr/bin/env python3
"""Tests .ci/meaning on a made-up tree: what counts as a public clause, what it rests on, and each check of the lists."""
import unittest

from made_up import MadeUpTree, script

meaning = script("meaning")

CODE_OF_BASE = """\
//! Bytes.
pub mod bytes;
mod inner;
pub use inner::{shown};

ghost use Rattle.markdown_base.specs.Fields.{field};
ghost use Rattle.markdown_base.specs.Hidden.{hidden as kept};

/// A type with a field for clauses, which a proof gives.
pub struct Held {
    bytes: u8,
    ghost own: { kept },
    pub ghost view: { field } by { kept },
}

impl Model for Held {
    ghost invariant = { λ held. kept held };
}
"""
CODE_OF_BYTES = """\
//! A module that other crates reach.
ghost use Rattle.markdown_base.specs.Bytes.{is_blank};
ghost use Rattle.markdown_base.specs.Hidden.{hidden};

/// Whether a byte is blank.
pub fn blank(byte: u8) -> bool
    requires { is_blank byte.now }
{
    // hidden
    let hidden = helper(byte);
    hidden
}

fn helper(byte: u8) -> bool
    ensures { hidden byte.now }
{
    true
}
"""
CODE_OF_INNER = """\
//! A module of which other crates reach one function.
ghost use Rattle.markdown_base.specs.Exports.{exported};
ghost use Rattle.markdown_base.specs.Hidden.{hidden};

pub fn shown(byte: u8)
    ensures { exported byte.now }
{}

pub fn unshown(byte: u8)
    ensures { hidden byte.now }
{}
"""
CODE_OF_SCAN = """\
//! A trait and an impl.
ghost use Rattle.markdown_base.specs.Passed.{is_blank as blank};
ghost use Rattle.markdown_scan.specs.Scans.{scans, scan_of};

pub trait Scanner {
    ghost state = { scans };
    fn scan(&self);
}

pub struct Bytes {}

impl Scanner for Bytes {
    ghost state = { scan_of blank };
}
"""
CODE_OF_TOOL = """\
//! A program.
ghost use Rattle.markdown_base.specs.Bytes.{space};
mod inside;

fn main() {}
"""
CODE_INSIDE = """\
//! A module that the program reaches.
ghost use Rattle.markdown_tool.specs.Lines.{line};

pub fn write()
    ensures { line }
{}
"""
ARCHITECTURE = """\
# Architecture

## Where each syntax is

| Syntax | Definition | Docs |
|---|---|---|
| blank | `base/specs/Bytes.antt` | README |

## More
"""
FILES = """\
# Files

The files that the public clauses of `blank` and of `markdown_tool` rest on, 8 lines in all:

| File | Lines | Defines |
|---|---|---|
| `markdown_tool/specs/Lines.antt` | 2 | lines |
| `markdown_base/specs/Bytes.antt` | 6 | bytes |

The spec files that no row of a syntax names:

| File | Defines |
|---|---|
| `base/specs/Exports.antt` | what is exported |
| `base/specs/Fields.antt` | fields |
| `base/specs/Hidden.antt` | private: what no public clause names |
| `base/specs/Passed.antt` | private: names of another file |
| `scan/specs/Scans.antt` | scans |
| `tool/specs/Lines.antt` | lines |
"""


class MeaningTest(MadeUpTree):
    files = {
        "crates.txt":
            "# NAME: what it uses\nmarkdown_base: bitflags\nmarkdown_scan: markdown_base\nmarkdown_tool: markdown_base\n",
        "crates/markdown_base/src/lib.rt": CODE_OF_BASE,
        "crates/markdown_base/src/bytes.rt": CODE_OF_BYTES,
        "crates/markdown_base/src/inner.rt": CODE_OF_INNER,
        "crates/markdown_base/specs/Lib.antt": "-- All of it.\n",
        "crates/markdown_base/specs/Bytes.antt":
            "-- Bytes. By number.\npub space : Nat\nspace = 32\n\npub is_blank : Nat -> Bool\nis_blank b = b == space\n",
        "crates/markdown_base/specs/Exports.antt": "-- What is exported.\npub exported : Nat -> Bool\n",
        "crates/markdown_base/specs/Fields.antt": "-- Fields.\npub field : Nat\nfield = 1\n",
        "crates/markdown_base/specs/Hidden.antt": "-- What no public clause names.\npub hidden : Nat -> Bool\n",
        "crates/markdown_base/specs/Passed.antt":
            "-- Names of another file.\npub use Rattle.markdown_base.specs.Bytes.{is_blank}\n",
        "crates/markdown_base/README.md": "# Base\n\nFiles that give meaning: `Bytes`, `Exports`, `Fields`.\n",
        "crates/markdown_scan/src/lib.rt": CODE_OF_SCAN,
        "crates/markdown_scan/specs/Scans.antt":
            "-- Scans.\npub scans : Nat\nscans = 1\npub scan_of : Bool -> Nat\nscan_of b = scans\n",
        "crates/markdown_scan/README.md": "# Scan\n\nFiles that give meaning: `Scans`; of `markdown_base` `Bytes`.\n",
        "crates/markdown_tool/src/main.rt": CODE_OF_TOOL,
        "crates/markdown_tool/src/inside.rt": CODE_INSIDE,
        "crates/markdown_tool/specs/Lines.antt": "-- Lines.\npub line : Nat\n",
        "crates/markdown_tool/README.md": "# Tool\n\nFiles that give meaning: `Lines`.\n",
        "docs/ARCHITECTURE.md": ARCHITECTURE,
        "docs/FILES.md": FILES,
    }

    def listed(self, crate):
        """The names of the files that the command prints for a crate."""
        status, lines = self.run_main(meaning.main, crate)
        self.assertEqual(status, 0)
        return [line.split()[0] for line in lines]


class WhatGivesMeaning(MeaningTest):
    def test_clauses_of_public_functions_and_public_ghost_fields(self):
        files = [f"markdown_base/specs/{name}.antt" for name in ("Bytes", "Exports", "Fields")]
        self.assertEqual(self.listed("markdown_base"), files)

    def test_ghost_members_and_names_that_a_file_passes_on(self):
        self.assertEqual(self.listed("markdown_scan"), ["markdown_base/specs/Bytes.antt", "markdown_scan/specs/Scans.antt"])

    def test_modules_that_a_program_reaches(self):
        self.assertEqual(self.listed("markdown_tool"), ["markdown_tool/specs/Lines.antt"])

    def test_members_of_a_private_trait_and_fields_of_a_private_type_do_not_count(self):
        self.replace("crates/markdown_scan/src/lib.rt", "pub trait", "trait")
        self.replace("crates/markdown_base/src/lib.rt", "pub struct", "struct")
        self.assertEqual(self.listed("markdown_scan"), [])
        self.assertNotIn("markdown_base/specs/Fields.antt", self.listed("markdown_base"))

    def test_names_are_followed_through_bodies_and_modules(self):
        self.write(
            "crates/markdown_tool/specs/Lines.antt",
            "use Rattle.markdown_base.specs.Hidden.{hidden}\nmodule Line where\n  pub line : Nat\n  line = hidden 1\n",
        )
        self.assertEqual(self.listed("markdown_tool"), ["markdown_base/specs/Hidden.antt", "markdown_tool/specs/Lines.antt"])

    def test_a_constructor_names_what_its_type_does(self):
        self.write(
            "crates/markdown_tool/specs/Lines.antt",
            "use Rattle.markdown_base.specs.Hidden.{hidden}\npub data Line : Type 0 where\n  line : hidden 1 -> Line\n",
        )
        self.assertEqual(self.listed("markdown_tool"), ["markdown_base/specs/Hidden.antt", "markdown_tool/specs/Lines.antt"])

    def test_a_file_that_only_passes_on_a_type_of_elsewhere_gives_no_meaning(self):
        self.write("crates/markdown_tool/specs/Lines.antt", "pub use Rattle.std.specs.Prelude.{Nat as line}\n")
        self.assertEqual(self.listed("markdown_tool"), [])

    def test_why_a_file_gives_meaning(self):
        status, lines = self.run_main(meaning.main, "markdown_base", "Bytes")
        self.assertEqual((status, lines), (0, ["is_blank of markdown_base/specs/Bytes.antt, which is named by", "blank"]))

    def test_why_by_more_than_one_step(self):
        _, lines = self.run_main(meaning.main, "markdown_scan", "Scans")
        self.assertEqual(lines, ["scans of markdown_scan/specs/Scans.antt, which is named by", "Scanner::state"])
        self.write(
            "crates/markdown_tool/specs/Lines.antt",
            "use Rattle.markdown_tool.specs.Ends.{end}\npub line : Nat\nline = end\n",
        )
        self.write(
            "crates/markdown_tool/specs/Ends.antt",
            "use Rattle.markdown_base.specs.Bytes.{space}\npub end : Nat\nend = space\n",
        )
        _, lines = self.run_main(meaning.main, "markdown_tool", "Bytes")
        steps = ["space of markdown_base/specs/Bytes", "end of markdown_tool/specs/Ends", "line of markdown_tool/specs/Lines"]
        self.assertEqual(lines, [f"{step}.antt, which is named by" for step in steps] + ["write"])

    def test_why_for_a_file_that_gives_no_meaning(self):
        _, lines = self.run_main(meaning.main, "markdown_base", "Hidden")
        self.assertEqual(lines, ["no public clause of markdown_base rests on Hidden"])

    def test_words_that_are_no_crate(self):
        self.assertEqual(self.run_main(meaning.main, "markdown_none"), (2, ["there is no crate markdown_none"]))
        status, lines = self.run_main(meaning.main, "--all")
        self.assertEqual((status, lines[0]), (2, meaning.__doc__.splitlines()[0]))


class Command(MeaningTest):
    def test_passes(self):
        status, lines = self.run_main(meaning.main)
        self.assertEqual((status, len(lines)), (0, 1), lines)
        self.assertIn("the docs list exactly the files that give meaning", lines[0])

    def test_fails(self):
        self.replace("crates/markdown_tool/README.md", "`Lines`", "")
        status, lines = self.run_main(meaning.main)
        self.assertEqual(status, 1)
        self.assertEqual(lines, ["crates/markdown_tool/README.md: lacks Lines; run .ci/meaning --write"])

    def test_writing_changes_nothing_that_is_right(self):
        self.run_main(meaning.main, "--write")
        self.assertEqual({path: self.read(path) for path in self.files}, self.files)

    def test_writing_restores_the_lists(self):
        self.replace("crates/markdown_base/README.md", "`Exports`, `Fields`", "`None`")
        self.replace("docs/FILES.md", "8 lines in all", "9 lines in all")
        self.replace("docs/FILES.md", "| `markdown_base/specs/Bytes.antt` | 6 | bytes |\n", "")
        self.replace("docs/FILES.md", "| `base/specs/Hidden.antt` | private: what no public clause names |\n", "")
        self.replace("docs/FILES.md", "| what is exported |", "| private: what is exported |")
        status, lines = self.run_main(meaning.main, "--write")
        self.assertEqual(status, 0, lines)


class Readme(MeaningTest):
    path = "crates/markdown_base/README.md"

    def check(self, tree):
        return meaning.check_readme(tree, "markdown_base")

    def test_passes(self):
        self.assert_passes(self.check)

    def test_lacks_a_file(self):
        self.replace(self.path, ", `Fields`", "")
        self.assert_finds(self.check, f"{self.path}: lacks Fields; run .ci/meaning --write")

    def test_names_a_file_too_much(self):
        self.replace(self.path, "`Fields`", "`Fields`, `Hidden`")
        self.assert_finds(self.check, f"{self.path}: names Hidden, on which no such clause rests; run .ci/meaning --write")

    def test_is_in_another_form(self):
        self.replace(self.path, "`Bytes`, `Exports`", "`Exports`, `Bytes`")
        self.assert_finds(self.check, f"{self.path}: the list is not in the form that .ci/meaning --write gives it")

    def test_has_no_sentence(self):
        self.write(self.path, "# Base\n")
        what_to_do = "begin a line with 'Files that give meaning:.' and run .ci/meaning --write"
        self.assert_finds(self.check, *(f"{self.path}: lacks {name}; {what_to_do}" for name in ("Bytes", "Exports", "Fields")))

    def test_is_not_there(self):
        self.remove(self.path)
        self.assert_finds(self.check, *(f"{self.path}: lacks {name}" for name in ("Bytes", "Exports", "Fields")))

    def test_needs_no_sentence_without_such_files(self):
        self.write("crates/markdown_more/src/lib.rt", "pub fn nothing() {}\n")
        self.assert_passes(lambda tree: meaning.check_readme(tree, "markdown_more"))

    def test_has_a_sentence_without_such_files(self):
        path = "crates/markdown_more/README.md"
        self.write("crates/markdown_more/src/lib.rt", "pub fn nothing() {}\n")
        self.write(path, "Files that give meaning: `Bytes`.\n")
        message = f"{path}: names Bytes, on which no such clause rests; take the sentence"
        self.assert_finds(lambda tree: meaning.check_readme(tree, "markdown_more"), message)

    def test_lists_own_files_on_which_only_clauses_of_others_rest(self):
        self.write("crates/markdown_more/src/lib.rt", "ghost use Rattle.markdown_base.specs.Hidden.{hidden};\n" + (
            "pub fn more()\n    ensures { hidden 1 }\n{}\n"))
        self.assert_finds(self.check, f"{self.path}: lacks Hidden")

    def test_writing_keeps_what_comes_after(self):
        self.write(self.path, "# Base\n\nFiles that give meaning:. More of it.\n")
        meaning.write_readme(self.tree(), "markdown_base")
        self.assertEqual(self.read(self.path), "# Base\n\nFiles that give meaning: `Bytes`, `Exports`, `Fields`.\nMore of it.\n")


class ReadingOrder(MeaningTest):
    check = staticmethod(meaning.check_reading_order)

    def test_passes(self):
        self.assert_passes(self.check)

    def test_lacks_a_file(self):
        self.replace("docs/FILES.md", "| `markdown_base/specs/Bytes.antt` | 6 | bytes |\n", "")
        self.assert_finds(self.check, "docs/FILES.md, the reading order: lacks markdown_base/specs/Bytes.antt; run .ci/meaning")

    def test_names_a_file_too_much(self):
        row = "| `markdown_tool/specs/Lines.antt` | 2 |"
        self.replace("docs/FILES.md", row, f"| `markdown_base/specs/Hidden.antt` | 2 | hidden |\n{row}")
        message = "docs/FILES.md, the reading order: names markdown_base/specs/Hidden.antt, on which no such clause rests"
        self.assert_finds(self.check, message)

    def test_has_a_wrong_number_of_lines(self):
        self.replace("docs/FILES.md", "| 6 |", "| 7 |")
        self.assert_finds(self.check, "docs/FILES.md: markdown_base/specs/Bytes.antt has 6 lines, not 7; run .ci/meaning")

    def test_has_a_wrong_number_in_all(self):
        self.replace("docs/FILES.md", "8 lines in all", "9 lines in all")
        self.assert_finds(self.check, "docs/FILES.md: the files have 8 lines in all, which the paragraph")

    def test_is_not_there(self):
        message = "docs/FILES.md has no paragraph 'The files that the public clauses of ..' followed by a table"
        self.replace("docs/FILES.md", "The files that the public", "What the public")
        self.assert_finds(self.check, message)
        self.remove("docs/FILES.md")
        self.assert_finds(self.check, f"{message}: there is no such file")

    def test_writing_keeps_the_order_and_puts_a_new_file_after_those_of_its_crate(self):
        self.replace("docs/FILES.md", "`blank` and", "`blank`, of `Scanner::state` and of `Held` and")
        self.replace("docs/FILES.md", "| 6 | bytes |", "| 1 | the bytes |")
        meaning.write_reading_order(self.tree())
        self.assert_passes(self.check)
        rows = [line for line in self.read("docs/FILES.md").split("\n") if line.startswith("| `markdown_")]
        self.assertEqual(rows, [
            "| `markdown_tool/specs/Lines.antt` | 2 | lines |",
            "| `markdown_base/specs/Bytes.antt` | 6 | the bytes |",
            "| `markdown_base/specs/Fields.antt` | 3 | fields |",
            "| `markdown_scan/specs/Scans.antt` | 5 | scans |",
        ])


class OtherDefinitions(MeaningTest):
    check = staticmethod(meaning.check_other_definitions)
    where = "docs/FILES.md, the other definitions"

    def test_passes(self):
        self.assert_passes(self.check)

    def test_lacks_a_file(self):
        self.replace("docs/FILES.md", "| `scan/specs/Scans.antt` | scans |\n", "")
        self.assert_finds(self.check, f"{self.where}: lacks scan/specs/Scans.antt; run .ci/meaning --write")

    def test_names_a_file_that_is_not_there(self):
        row = "| `scan/specs/Scans.antt`"
        self.replace("docs/FILES.md", row, f"| `scan/specs/Gone.antt` | gone |\n{row}")
        self.assert_finds(self.check, f"{self.where}: names scan/specs/Gone.antt, which is not there; run")

    def test_names_a_file_of_a_syntax(self):
        row = "| `scan/specs/Scans.antt`"
        self.replace("docs/FILES.md", row, f"| `base/specs/Bytes.antt` | bytes |\n{row}")
        self.assert_finds(self.check, f"{self.where}: names base/specs/Bytes.antt, which a row of a syntax names; run")

    def test_is_private(self):
        self.replace("docs/FILES.md", "private: what no", "what no")
        self.assert_finds(self.check, f"{self.where}: base/specs/Hidden.antt is private; run")

    def test_is_not_private(self):
        self.replace("docs/FILES.md", "| scans |", "| private: scans |")
        self.assert_finds(self.check, f"{self.where}: scan/specs/Scans.antt is not private; run")

    def test_is_not_crate_by_crate(self):
        row = "| `base/specs/Exports.antt` | what is exported |\n"
        self.replace("docs/FILES.md", row, "")
        self.replace("docs/FILES.md", "| `tool/specs/Lines.antt` | lines |\n", "| `tool/specs/Lines.antt` | lines |\n" + row)
        self.assert_finds(self.check, f"{self.where}: not in the order that .ci/meaning --write gives them")

    def test_files_of_the_front_crate_are_not_private(self):
        self.replace("crates.txt", "markdown_tool:", "markdown: markdown_base\nmarkdown_tool:")
        self.write("crates/markdown/src/lib.rt", "pub fn nothing() {}\n")
        self.write("crates/markdown/specs/Words.antt", "-- Words.\npub use Rattle.markdown_base.specs.Bytes.{space}\n")
        row = "| `tool/specs/Lines.antt`"
        self.replace("docs/FILES.md", row, f"| `markdown/specs/Words.antt` | words |\n{row}")
        self.assert_passes(self.check)

    def test_a_table_is_not_there(self):
        no_table = "docs/FILES.md has no table that begins '| File | Defines |'"
        no_section = "docs/ARCHITECTURE.md has no table in a section '## Where each syntax is'"
        self.replace("docs/FILES.md", "| File | Defines |", "| File | Holds |")
        self.assert_finds(self.check, no_table)
        self.remove("docs/ARCHITECTURE.md")
        self.assert_finds(self.check, f"{no_section}: there is no such file", no_table)
        meaning.write_lists(self.tree())
        self.assertIn("| File | Holds |", self.read("docs/FILES.md"))

    def test_writing(self):
        self.replace("docs/FILES.md", "| `scan/specs/Scans.antt` | scans |\n", "")
        self.replace("docs/FILES.md", "| `base/specs/Hidden.antt` | private: what no public clause names |\n", "")
        meaning.write_other_definitions(self.tree())
        self.assert_passes(self.check)
        self.assertIn("| `base/specs/Hidden.antt` | private: what no public clause names |\n", self.read("docs/FILES.md"))


class DefinitionsOfSyntaxes(MeaningTest):
    check = staticmethod(meaning.check_definitions_of_syntaxes)

    def test_passes(self):
        self.assert_passes(self.check)

    def test_names_a_file_that_gives_no_meaning(self):
        self.replace("docs/ARCHITECTURE.md", "`base/specs/Bytes.antt`", "`base/specs/Hidden.antt`")
        self.assert_finds(self.check, "docs/ARCHITECTURE.md, blank: no public clause rests on base/specs/Hidden.antt")


class OneMeaning(MeaningTest):
    check = staticmethod(meaning.check_one_meaning)
    again = "-- Scans.\npub scans : Nat\nscans = 1\npub scan_of : Bool -> Nat\nscan_of b = scans\n"

    def test_passes(self):
        self.assert_passes(self.check)

    def test_a_name_with_two_definitions(self):
        self.write("crates/markdown_tool/specs/Lines.antt", "pub line : Nat\nline = 1\npub space : Nat\nspace = 33\n")
        message = "two files define space: markdown_base/specs/Bytes.antt, markdown_tool/specs/Lines.antt; give"
        self.assert_finds(self.check, message)

    def test_a_name_with_the_same_definition_twice(self):
        self.write("crates/markdown_tool/specs/Lines.antt", "pub line : Nat\n-- as in base\npub space : Nat\nspace =  32\n")
        self.assert_passes(self.check)

    def test_a_private_name_or_one_of_a_module_may_be_as_another(self):
        self.write("crates/markdown_tool/specs/Lines.antt", "pub line : Nat\nspace : Nat\nspace = 33\n")
        self.assert_passes(self.check)
        self.write("crates/markdown_tool/specs/Lines.antt", "pub line : Nat\nmodule Inner where\n  pub space : Nat\n")
        self.assert_passes(self.check)

    def test_a_name_that_is_apart(self):
        self.write("crates/markdown_tool/specs/Lines.antt", "pub line : Nat\npub space : Nat\nspace = 33\n")
        self.assert_passes(lambda tree: meaning.check_one_meaning(tree, apart={"space"}))

    def test_a_name_that_is_apart_but_is_reached_in_both_meanings(self):
        self.write(
            "crates/markdown_tool/specs/Lines.antt",
            "use Rattle.markdown_base.specs.Bytes.{is_blank}\npub line : Nat\nline = is_blank 1\npub space : Nat\nspace = 33\n",
        )
        self.assert_finds(lambda tree: meaning.check_one_meaning(tree, apart={"space"}), "two files define space: ")


if __name__ == "__main__":
    unittest.main()
