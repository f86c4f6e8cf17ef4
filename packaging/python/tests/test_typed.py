"""Tests of what the package reads of records: typed events, columns, definitions, and references without one."""
import dataclasses
import random
import sys
import unittest
from pathlib import Path

import provedown
from provedown import BadRecords, BrokenLink, Definition, Kind, MarkdownError, SafeRules, typed
from provedown.typed import End, Event, Heading, Html, Image, ItemList, Link, Paragraph, SoftBreak, Start, Table, Text

# The extensions that typed events have.
EXTENSIONS = [name for name in provedown.ALL if name not in ("autolinks", "heading-ids")]

RULES = SafeRules("1-", "links", rel=False, nesting=3)

TEXTS = [
    "",
    "é *b* **c** `d` \\\ne\nf  \ng ~~h~~ ^i^ ~j~ $k$ $$l$$ <b>",
    "# A *b* {#c .d e=f g}\n\nB\n=\n",
    "> a\n\n> [!NOTE]\n> b\n\n---\n\n    c\n\n```d e\nf\n```\n\n<p>\ng\n</p>\n",
    "- a\n- b\n\n123456789. c\n\n- [ ] d\n- [x] e\n",
    "|a|b|c|\n|-|:-:|-:|\n|d|\n",
    "[a](b 'c') ![d](<e> \"f\") [g][h] [H][] [h] <i:j> <k@l.m> [[n]] [[o|p]] &copy; [q]\n\n[h]: s 't'\n[u]: v\n",
    "---\na: b\n---\n\n[^a]\n\n[^a]: b\n\n\"c\" -- d...\n",
    "+++\na\n+++\n\n𝒳 \u2028 [é][] x\n",
]


def without_range(event: Event) -> Event:
    return dataclasses.replace(event, start=0, end=0)


class Events(unittest.TestCase):
    def test_events(self):
        found = typed.events("é [b](c 'd')  \ne")
        self.assertIs(iter(found), found)
        link = Link("inline", "c", "d")
        wanted = [
            Start(Paragraph(), 0, 16),
            Text("é ", 0, 2),
            Start(link, 2, 12),
            Text("b", 3, 4),
            End(link, 2, 12),
            typed.HardBreak(12, 15),
            Text("e", 15, 16),
            End(Paragraph(), 0, 16),
        ]
        self.assertEqual(list(found), wanted)

    def test_tags(self):
        def tags(text):
            return [it.tag for it in typed.events(text, EXTENSIONS) if isinstance(it, Start)]

        heading = Heading(2, "b", ("c",), (("d", "e"),))
        self.assertEqual(tags("## a {#b .c d=e}"), [heading])
        self.assertEqual(tags("7. a"), [ItemList(7), typed.Item()])
        self.assertEqual(tags("- a")[0], ItemList())
        self.assertEqual(tags("|a|b|\n|-|:-:|\n")[0], Table(("none", "center")))
        self.assertEqual(tags("> [!TIP]\n> a")[0], typed.BlockQuote("tip"))
        self.assertEqual(tags("```a\n```\n\n    b"), [typed.CodeBlock("a"), typed.CodeBlock()])
        self.assertEqual(tags("![a][b]\n\n[b]: c 'd'\n")[1], Image("reference", "c", "d", "b"))
        self.assertEqual(tags("<a@b.c>")[1], Link("email", "a@b.c"))
        self.assertEqual(tags("+++\na\n+++\n"), [typed.MetadataBlock("pluses")])

    def test_values(self):
        self.assertNotEqual(Text("a"), Html("a"))
        self.assertNotEqual(SoftBreak(1, 2), typed.HardBreak(1, 2))
        self.assertEqual(len({Text("a"), Text("a", 0, 0), Paragraph(), Paragraph()}), 2)
        with self.assertRaises(dataclasses.FrozenInstanceError):
            Text("a").text = "b"

    def test_same_as_lines_of_json(self):
        """The events have the names and the ranges of those of `provedown.events`."""
        for text in TEXTS:
            wanted = [(it.name, it.start, it.end) for it in provedown.events(text, EXTENSIONS)]
            self.assertEqual([(type(it).__name__, it.start, it.end) for it in typed.events(text, EXTENSIONS)], wanted)

    @unittest.skipIf(sys.version_info < (3, 10), "Python has no match")
    def test_match(self):
        sys.path.insert(0, str(Path(__file__).parent))
        try:
            from match_events import summary
        finally:
            del sys.path[0]
        text = "## A *b* `c`\n\n[d](e 'f')\\\n![g](h)\n\n1. - [x] i\n"
        wanted = ["h2", "A ", "b", " ", "code c", "end of h2", "link e", "d", "break", "image", "g", "list from 1", "list"]
        self.assertEqual(list(summary(text)), [*wanted, "done", "i"])


class Rendering(unittest.TestCase):
    def test_same_as_html_of_the_text(self):
        for text in TEXTS:
            for safe in (True, False):
                wanted = provedown.html(text, EXTENSIONS, safe=safe)
                self.assertEqual(typed.html(typed.events(text, EXTENSIONS), safe=safe), wanted)
            wanted = provedown.html(text, EXTENSIONS, rules=RULES)
            self.assertEqual(typed.html(typed.events(text, EXTENSIONS), rules=RULES), wanted)

    def test_changed_events(self):
        def shifted(event):
            if isinstance(event, (Start, End)) and isinstance(event.tag, Heading):
                return dataclasses.replace(event, tag=dataclasses.replace(event.tag, level=event.tag.level + 1))
            return event

        self.assertEqual(typed.html(map(shifted, typed.events("# a"))), "<h2>a</h2>\n")
        made = [Start(Paragraph()), Text("<é>"), typed.InlineHtml("<b>"), Start(Link("inline", "javascript:c"))]
        made += [End(Link("inline", "")), End(Paragraph())]
        self.assertEqual(typed.html(made), '<p>&lt;é&gt;&lt;b&gt;<a href=""></a></p>\n')
        self.assertEqual(typed.html(made, safe=False), '<p>&lt;é&gt;<b><a href="javascript:c"></a></p>\n')

    def test_events_read_back(self):
        for text in TEXTS:
            wanted = [without_range(it) for it in typed.events(text, EXTENSIONS)]
            self.assertEqual(list(typed.events_of_records("", typed.records_of_events(wanted))), wanted)

    def test_made_events_read_back(self):
        """Some have no text that they are read of."""
        tags = [typed.DefinitionList(), typed.DefinitionListTitle(), typed.DefinitionListDefinition()]
        made = [Start(tags[0]), Start(tags[1]), End(tags[1]), Start(tags[2]), End(tags[2]), End(tags[0])]
        heading = Heading(3, "", ("a", "b"), (("c", None), ("d", "e"), ("f", "")))
        made += [Start(heading), End(heading), Start(ItemList(2**64 - 1)), End(ItemList(2**64 - 1))]
        self.assertEqual(list(typed.events_of_records("", typed.records_of_events(made))), made)

    def test_refused_events(self):
        for event in (Start(Heading(7)), End(Heading(0)), Start(ItemList(-1)), Start(ItemList(2**64)), Start(Link("x", ""))):
            self.assertRaises(MarkdownError, typed.html, [event])
        self.assertRaises(MarkdownError, typed.html, [Start(Table(("middle",)))])
        for event in (None, "a", Paragraph(), Start(Text("a")), Text(b"a"), provedown.Event("SoftBreak", None, 0, 0)):
            self.assertRaises(TypeError, typed.html, [event])
        self.assertRaises(UnicodeEncodeError, typed.html, [Text("\ud800")])


class Questions(unittest.TestCase):
    def test_broken(self):
        text = "é [a] [b][c] [d][]\n\n[a]: e\n"
        wanted = [BrokenLink("reference", "c", 6, 12), BrokenLink("collapsed", "d", 13, 16)]
        self.assertEqual(provedown.broken(text), wanted)
        self.assertEqual(provedown.broken("[a](b) `[c]`"), [])

    def test_answers(self):
        asked = []

        def answer(link):
            asked.append(link.label)
            return {"x": "/x", "y": ("/y", "Y"), "ab": "ab"}.get(link.label)

        text = "[a] [x] [b][y] [ab][]\n\n> [c]\n"
        wanted = '<p>[a] <a href="/x">x</a> <a href="/y" title="Y">b</a> <a href="ab">ab</a></p>\n'
        wanted += "<blockquote>\n<p>[c]</p>\n</blockquote>\n"
        self.assertEqual(typed.html(typed.events(text, broken_link=answer)), wanted)
        self.assertEqual(asked, ["a", "x", "y", "ab", "c"])
        made = [it.tag for it in typed.events("[x]", broken_link=answer) if isinstance(it, Start)][1]
        self.assertEqual(made, Link("shortcut-unknown", "/x", "", "x"))

    def test_a_link_holds_no_link(self):
        """A bracket around an answered link is asked nothing, since no link is in a link."""
        asked = []

        def answer(link):
            asked.append(link.label)
            return "/b" if link.label == "b" else None

        typed.events("[a [b] c]", broken_link=answer)
        self.assertEqual(asked, ["b"])

    def test_many_answers(self):
        text = " ".join(f"[{it}]" for it in range(30))
        tags = [it.tag for it in typed.events(text, broken_link=lambda link: f"/{link.label}") if isinstance(it, Start)]
        self.assertEqual([it.dest_url for it in tags[1:]], [f"/{it}" for it in range(30)])

    def test_errors_of_the_callback(self):
        self.assertRaises(ZeroDivisionError, typed.events, "[a]", broken_link=lambda link: 1 // 0)
        self.assertRaises(TypeError, typed.events, "[a]", broken_link=lambda link: 7)

    def test_definitions(self):
        text = "é\n\n[A  b]: <c> 'd'\n[e]: f\n[a b]: g\n"
        found = provedown.definitions(text)
        self.assertEqual(found[1], Definition("e", "f", None, 19, 25))
        self.assertEqual([(it.dest_url, it.title) for it in found], [("c", "d"), ("f", None)])
        self.assertEqual(provedown.fold("Äß"), "äss")


class Columns(unittest.TestCase):
    def test_columns(self):
        text = "## é\n\n[a](b 'c') *d* [e]\n\n[f]: g 'h'\n"
        found = provedown.columns(text)
        events = list(typed.events(text))
        self.assertEqual(len(found.kinds), len(events))
        self.assertEqual([*zip(found.starts, found.ends)], [(it.start, it.end) for it in events])
        self.assertEqual(found.details[found.kinds.index(Kind.HEADING)], 2)
        counts = [found.kinds.count(it) for it in (Kind.LINK, Kind.EMPHASIS, Kind.EMPHASIS + Kind.END, Kind.IMAGE)]
        self.assertEqual(counts, [1, 1, 1, 0])

    def test_no_events(self):
        self.assertEqual(provedown.columns("").kinds, b"")


class Damage(unittest.TestCase):
    """Bytes that are no records are `BadRecords`, and nothing else."""

    def refuses(self, text, records):
        with self.assertRaises(BadRecords):
            list(typed.events_of_records(text, records))

    def test_header(self):
        good = provedown.records("a")
        self.assertEqual(list(typed.events_of_records("a", good)), list(typed.events("a")))
        self.refuses("b" * 2, good)
        for bad in (b"", b"MDR1", good[:-1], good + b"a", b"MDR2" + good[4:], good[:4] + b"\2" + good[5:]):
            self.refuses("a", bad)
        self.assertTrue(issubclass(BadRecords, MarkdownError))

    def test_fields(self):
        text = "[é](b 'c')"
        good = provedown.records(text)
        # an offset of a byte, and what it becomes: a class of a link, an unknown type, a cut character, an end of nothing
        for at, byte in ((72, 0x83), (49, 11), (108, 2), (112, 1), (24, 0x41), (32, 99), (12, 0), (12, 1), (68, 255)):
            self.assertNotEqual(good[at], byte)
            self.refuses(text, good[:at] + bytes([byte]) + good[at + 1 :])
        self.refuses("", typed.records_of_events([Start(Paragraph())]))
        self.refuses("", typed.records_of_events([End(Paragraph())]))
        self.refuses("", typed.records_of_events([Start(Heading(1)), End(Heading(2))]))

    def test_pool(self):
        good = typed.records_of_events([Text("é")])
        self.refuses("", good[:-1] + b"a")

    def test_random_damage(self):
        rest = random.Random(7)
        read = 0
        for turn in range(4000):
            text = TEXTS[turn % len(TEXTS)]
            bad = bytearray(provedown.records(text, EXTENSIONS) if turn < len(TEXTS) else self.stored[text])
            self.stored[text] = bytes(bad)
            for _ in range(rest.randint(1, 3)):
                bad[rest.randrange(len(bad))] = rest.choice((0, 1, 2, 3, 0x20, 0x81, 0x83, 255, rest.randrange(256)))
            try:
                found = list(typed.events_of_records(text, bad))
            except BadRecords:
                continue
            read += 1
            if read % 50 == 0:
                # (what is read here is rendered, and events mean the same HTML as their records)
                typed.html(found)
        self.assertTrue(0 < read < 4000)

    def setUp(self):
        self.stored = {}


class Extensions(unittest.TestCase):
    def test_false_values(self):
        calls = [provedown.html, provedown.events, provedown.columns, provedown.broken, typed.events]
        for call in calls:
            self.assertRaises(TypeError, call, "a", {"tables": False})
            self.assertRaises(TypeError, call, "a", {"tables": True, "math": None})
        self.assertEqual(provedown.html("~~a~~", {"strikethrough": True}), "<p><del>a</del></p>\n")
        self.assertEqual(provedown.html("~~a~~", provedown.EXTENSIONS), "<p><del>a</del></p>\n")

    def test_names(self):
        self.assertRaises(provedown.UnknownExtension, typed.events, "a", ["nothing"])
        self.assertRaises(TypeError, typed.events, "a", "math")
        self.assertRaises(TypeError, typed.events, b"a")
        names = (it for it in ["strikethrough"])
        self.assertIn("<del>", typed.html(typed.events("~~a~~ [b]", names, broken_link=lambda link: "c")))


if __name__ == "__main__":
    unittest.main()
