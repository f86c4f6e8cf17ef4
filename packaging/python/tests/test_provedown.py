"""Tests of the package, by `python -m unittest`, where it is installed."""
import subprocess
import sys
import threading
import unittest

import provedown
from provedown import Event, Heading, MarkdownError, OverLimit, SafeRules, UnknownExtension


def run(words, given):
    return subprocess.run([sys.executable, "-m", "provedown", *words], input=given, capture_output=True)


class Html(unittest.TestCase):
    def test_html(self):
        self.assertEqual(provedown.html("*a* ~~b~~"), "<p><em>a</em> ~~b~~</p>\n")
        self.assertEqual(provedown.html("~~a~~", ["strikethrough"]), "<p><del>a</del></p>\n")
        self.assertEqual(provedown.html(""), "")
        self.assertEqual(provedown.html("a\0b"), "<p>a\0b</p>\n")
        self.assertEqual(provedown.html("&" * 10000), "<p>" + "&amp;" * 10000 + "</p>\n")

    def test_all_of_commonmark_is_read(self):
        link = '<p><a href="mailto:a@b.c">a@b.c</a> ©</p>\n'
        self.assertEqual(provedown.html("<a@b.c> &copy;", safe=False), link)

    def test_blocks_of_extensions(self):
        table = "<table><thead><tr><th>a</th></tr></thead><tbody>\n<tr><td>b</td></tr>\n</tbody></table>\n"
        self.assertEqual(provedown.html("|a|\n|-|\n|b|\n", ["tables"]), table)
        alert = '<blockquote class="markdown-alert-note">\n<p>a</p>\n</blockquote>\n'
        self.assertEqual(provedown.html("> [!NOTE]\n> a\n", ["gfm"]), alert)
        self.assertEqual(provedown.html("---\na: b\n---\nc\n", ["yaml"]), "<p>c</p>\n")
        heading = "# a {#b onclick=c}\n"
        safe = '<h1 id="user-content-b">a</h1>\n'
        self.assertEqual(provedown.html(heading, ["heading-attributes"]), safe)
        trusted = provedown.html(heading, ["heading-attributes"], safe=False)
        self.assertEqual(trusted, '<h1 id="b" onclick="c">a</h1>\n')

    def test_bare_addresses(self):
        link = '<p><a href="http://a.b" rel="nofollow ugc noopener">http://a.b</a></p>\n'
        self.assertEqual(provedown.html("http://a.b", ["autolinks"]), link)
        self.assertEqual(provedown.html("http://a.b", provedown.GITHUB), link)
        self.assertEqual(provedown.html("http://a.b"), "<p>http://a.b</p>\n")

    def test_ids_of_headings(self):
        text = "# A\n\n# A\n\n# A 1\n"
        ids = '<h1 id="a">A</h1>\n<h1 id="a-1">A</h1>\n<h1 id="a-1-1">A 1</h1>\n'
        self.assertEqual(provedown.html(text, ["heading-ids"], safe=False), ids)
        safe = '<h1 id="user-content-a">a</h1>\n<p><a href="#user-content-a">b</a></p>\n'
        self.assertEqual(provedown.html("# a\n\n[b](#a)\n", provedown.GITHUB), safe)

    def test_sets(self):
        everything = {*provedown.EXTENSIONS} - {"gfm", "old-footnotes"}
        self.assertEqual({*provedown.ALL}, everything)
        self.assertLess({*provedown.GITHUB}, everything)
        read = "<p><del>a</del> <sup>b</sup></p>\n"
        self.assertEqual(provedown.html("~~a~~ ^b^", provedown.ALL), read)

    def test_html_is_safe_unless_told_otherwise(self):
        text = "<b>c</b> [l](javascript:x) [m](/y)"
        safe = '<p>&lt;b&gt;c&lt;/b&gt; <a href="">l</a> <a href="/y">m</a></p>\n'
        self.assertEqual(provedown.html(text), safe)
        trusted = '<p><b>c</b> <a href="javascript:x">l</a> <a href="/y">m</a></p>\n'
        self.assertEqual(provedown.html(text, safe=False), trusted)
        self.assertEqual(provedown.html("a <!-- b --> c<BR>d"), "<p>a  c<br />\nd</p>\n")
        self.assertEqual(provedown.html("[a <bb:c> d](e)"), '<p><a href="e">a bb:c d</a></p>\n')


class Rules(unittest.TestCase):
    def test_rules(self):
        text = "![a](b) [c](//d) [e](#f)"
        self.assertEqual(provedown.html(text, rules=SafeRules()), provedown.html(text))
        links = '<p><a href="b">a</a> <a href="//d">c</a> <a href="#user-content-1-f">e</a></p>\n'
        self.assertEqual(provedown.html(text, rules=SafeRules("1-", "links", rel=False)), links)
        self.assertEqual(provedown.html(text, rules=SafeRules(images="text", nesting=1)), "<p>a c e</p>\n")
        self.assertEqual(provedown.html("~~a~~", ["strikethrough"], rules=SafeRules(nesting=2)), "<p><del>a</del></p>\n")
        self.assertEqual(provedown.html(text, rules=SafeRules(nesting=0)), "a c e")

    def test_limit(self):
        self.assertEqual(provedown.html("a", rules=SafeRules(limit=9)), "<p>a</p>\n")
        self.assertEqual(provedown.html("", rules=SafeRules(limit=0)), "")
        self.assertEqual(provedown.html("a", rules=SafeRules(limit=2**70)), "<p>a</p>\n")
        self.assertRaises(OverLimit, provedown.html, "a", rules=SafeRules(limit=8))

    def test_wrong_rules(self):
        self.assertRaises(TypeError, provedown.html, "a", safe=False, rules=SafeRules())
        self.assertRaises(TypeError, provedown.html, "a", rules=SafeRules(nesting="1"))
        self.assertRaises(MarkdownError, provedown.html, "a", rules=SafeRules(limit=-1))
        self.assertRaises(MarkdownError, provedown.html, "a", rules=SafeRules(images="none"))


class Readings(unittest.TestCase):
    def test_events(self):
        found = provedown.events("é *b*  \nc")
        self.assertIs(iter(found), found)
        wanted = [
            Event("Start", "Paragraph", 0, 9),
            Event("Text", "é ", 0, 2),
            Event("Start", "Emphasis", 2, 5),
            Event("Text", "b", 3, 4),
            Event("End", "Emphasis", 2, 5),
            Event("HardBreak", None, 5, 8),
            Event("Text", "c", 8, 9),
            Event("End", "Paragraph", 0, 9),
        ]
        self.assertEqual(list(found), wanted)

    def test_outline(self):
        wanted = [Heading(1, "A é", 0, 8), Heading(2, "B", 12, 16)]
        self.assertEqual(provedown.outline("# A *é*\n\nx\n\nB\n-\n")[0], wanted[0])
        self.assertEqual([it.text for it in provedown.outline("# A *é*\n\nx\n\nB\n-\n")], ["A é", "B"])

    def test_outline_with_ids(self):
        wanted = [Heading(1, "A b", 0, 8, "a-b"), Heading(2, "C", 9, 14, "c")]
        self.assertEqual(provedown.outline("# A *b*\n\n## C\n", ["heading-ids"]), wanted)
        self.assertIsNone(provedown.outline("# A")[0].id)

    def test_ranges_count_characters(self):
        text = "ä 𝒳 `c` \u2028 [x](y)\n\n# é\n"
        found = [it for it in provedown.events(text) if it.name in ("Text", "Code")]
        self.assertEqual([it.value for it in found], ["ä 𝒳 ", "c", " \u2028 ", "x", "é"])
        for event in found:
            self.assertIn(event.value, text[event.start : event.end])

    def test_lines_of_json(self):
        self.assertEqual(provedown.outline_json("# é"), '{"level":1,"text":"é","range":{"start":0,"end":4}}\n')
        self.assertTrue(provedown.events_json("é").endswith('[{"End":"Paragraph"},{"start":0,"end":2}]\n'))


class Errors(unittest.TestCase):
    def test_errors(self):
        self.assertRaises(TypeError, provedown.html, b"a")
        self.assertRaises(TypeError, provedown.html, "a", "math")
        self.assertRaises(UnknownExtension, provedown.events, "a", ["nothing"])
        self.assertTrue(issubclass(UnknownExtension, MarkdownError) and issubclass(MarkdownError, ValueError))
        self.assertRaises(UnicodeEncodeError, provedown.outline, "\ud800")

    def test_refused_memory(self):
        """A child that may have 1 GB cannot make the events of 64 MB."""
        asked = (
            "import provedown, resource\n"
            "text = 'a*' * 2**25\n"
            "resource.setrlimit(resource.RLIMIT_AS, (2**30, 2**30))\n"
            "try:\n    provedown.events_json(text)\n"
            "except MemoryError:\n    print('refused')\n"
        )
        ran = subprocess.run([sys.executable, "-c", asked], stdout=subprocess.PIPE)
        self.assertEqual(ran.stdout, b"refused\n")


class Threads(unittest.TestCase):
    def test_threads(self):
        wanted = "<p>" + "<em>a</em> " * 4999 + "<em>a</em></p>\n"
        found = []
        threads = [threading.Thread(target=lambda: found.append(provedown.html("*a* " * 5000))) for _ in range(8)]
        for it in threads:
            it.start()
        for it in threads:
            it.join()
        self.assertEqual(found, [wanted] * 8)


class Program(unittest.TestCase):
    def test_program(self):
        self.assertEqual(run([], "\ufeff*é*".encode()).stdout, "<p><em>é</em></p>\n".encode())
        self.assertEqual(run(["--unsafe"], b"a<b>").stdout, b"<p>a<b></p>\n")
        self.assertEqual(run(["-t", "outline", "-"], b"# a").stdout, b'{"level":1,"text":"a","range":{"start":0,"end":3}}\n')

    def test_failures(self):
        bad = run([], b"a\n\xff")
        self.assertEqual((bad.returncode, bad.stdout, bad.stderr), (1, b"", b"provedown: -:2: not UTF-8 at byte 2\n"))
        self.assertEqual(run(["/nothing"], b"").returncode, 1)
        self.assertEqual(run(["--nothing"], b"").returncode, 2)

    def test_closed_pipe(self):
        for unbuffered in ([], ["-u"]):
            words = [sys.executable, *unbuffered, "-m", "provedown"]
            with subprocess.Popen(words, stdin=subprocess.PIPE, stdout=subprocess.PIPE, stderr=subprocess.PIPE) as program:
                program.stdout.close()
                program.stdin.write(b"*a* " * 100000)
                program.stdin.close()
                self.assertEqual((program.wait(), program.stderr.read()), (1, b""))


if __name__ == "__main__":
    unittest.main()
