"""Texts that attack, each rendered as untrusted input and checked: `safe_attack.py SHARED_OBJECT [COUNT]`.

SHARED_OBJECT is made as `.ci/callers` makes it. COUNT texts (20,000 by default) are made of shapes (links, images,
definitions, titles, info strings, footnotes, wikilinks, math, raw HTML with comments and void tags) with payloads (schemes in
all spellings, tags, attributes, ends of values), from a fixed seed. Each is rendered by both entries, with no extension, with
all, and with all but old footnotes, which take the place of the others; and once more by rules that change from text to text.
The HTML is checked by Python's HTML parser, by a grammar, and by the URL standard's reading of schemes; all three are written
apart from the definitions of the library. They also find a link in a link, a heading in a heading, a part of a list or a
table that stands elsewhere, a link to another site without its `rel`, and what the rules forbid: an id without their prefix,
an image, a `rel`, and elements that nest deeper. Where Python has `html5lib`, which builds trees as browsers do, a page with
the HTML in an element is read too: nothing of the HTML stands outside that element, and its elements stand in each other as
its tags say. Prints each text that comes through, and how many do, also by `markdown_html_alloc`; exits with 1 where one
comes through, or where none does by `markdown_html_alloc`, since then the texts attack nothing.
"""
import ctypes
import random
import re
import sys
from html.parser import HTMLParser

try:
    import html5lib
except ImportError:
    html5lib = None

ATTRIBUTES = {
    "a": {"href", "title", "rel"}, "img": {"src", "alt", "title"}, "code": {"class"}, "ol": {"start"}, "th": {"align"},
    "td": {"align"}, "sup": {"class"}, "div": {"class", "id"}, "span": {"class"}, "blockquote": {"class"},
    "input": {"disabled", "type", "checked"}, **{f"h{level}": {"id"} for level in range(1, 7)},
}
VOID = {"img", "br", "hr", "wbr", "input"}
TAGS = VOID | set(ATTRIBUTES) | set("p pre ul li dl dt dd table thead tbody tr em strong del sub".split())
HEADINGS = {f"h{level}" for level in range(1, 7)}
# what elements of a kind stand in directly, and nothing else does
HOLDERS = {"li": {"ul", "ol"}, "thead": {"table"}, "tbody": {"table"}, "tr": {"thead", "tbody"}, "th": {"tr"}, "td": {"tr"}}
ALL_HOLDERS = set().union(*HOLDERS.values())
CLASSES = {"footnote-reference", "footnote-definition", "footnote-definition-label", "math math-inline", "math math-display"}
CLASSES |= {f"markdown-alert-{kind}" for kind in ("note", "tip", "important", "warning", "caution")}
VALUE = r'(?:[^&<>"]|&(?:amp|lt|gt|quot|#x27);)*'
GRAMMAR = re.compile(rf'(?:[^&<>]|&(?:amp|lt|gt|quot|#x27);|<[a-z0-9]+(?: [a-z]+="{VALUE}")*(?: ?/)?>|</[a-z0-9]+>)*')
# (the last two are bare addresses and ids of headings, which the port's profile passes over)
ALL_EXTENSIONS = sum(1 << bit for bit in (*range(1, 12), 13, 14, 15, 27, 28))
OLD_FOOTNOTES = 1 << 9
PROFILE = 1 << 29
READINGS = {
    f"{reading} with {extensions}": bit | bits
    for reading, bit in (("the port's profile", PROFILE), ("the full reading", 0))
    for extensions, bits in (
        ("no extension", 0), ("all extensions", ALL_EXTENSIONS), ("all but old footnotes", ALL_EXTENSIONS & ~OLD_FOOTNOTES)
    )
}


# bits of rules
IMAGE_LINKS, IMAGE_TEXTS, NO_REL = 1 << 0, 1 << 1, 1 << 2


class Rules(ctypes.Structure):
    """`struct markdown_safe_rules` of the header."""

    _fields_ = [
        ("prefix", ctypes.c_char_p), ("prefix_length", ctypes.c_size_t), ("bits", ctypes.c_uint32),
        ("nesting", ctypes.c_size_t), ("limit", ctypes.c_size_t),
    ]

    def __init__(self, prefix=b"", bits=0, nesting=128):
        super().__init__(prefix, len(prefix), bits, nesting, ctypes.c_size_t(-1).value)


class Library:
    """The calls of a shared object that allocate."""

    def __init__(self, path):
        self.library = ctypes.CDLL(path)
        self.library.markdown_free.argtypes, self.library.markdown_free.restype = [ctypes.c_void_p], None

    def made(self, call, text, options, *rules):
        """What a call makes of a text, by rules where it takes them."""
        function = getattr(self.library, call)
        by = [ctypes.POINTER(Rules) for _ in rules]
        function.argtypes = [ctypes.c_char_p, ctypes.c_size_t, ctypes.c_uint32, *by, ctypes.POINTER(ctypes.c_int64)]
        function.restype = ctypes.c_void_p
        given, length = text.encode(), ctypes.c_int64()
        result = function(given, len(given), options, *map(ctypes.byref, rules), ctypes.byref(length))
        if result is None:
            sys.exit(f"{call} returns the status {length.value} for {text!r}")
        try:
            return ctypes.string_at(result, length.value).decode()
        finally:
            self.library.markdown_free(result)


def has_no_scheme_but(schemes, url):
    """Reads the scheme as the URL standard does: ends stripped of controls and spaces, tabs and line ends dropped."""
    url = re.sub("[\t\n\r]", "", url.strip("".join(map(chr, range(33)))))
    scheme = re.match(r"([A-Za-z][A-Za-z0-9+.-]*):", url)
    return not scheme or scheme[1].lower() in schemes


def leaves_site(url):
    """Whether a browser finds a scheme or a host in a URL: as the URL standard does, where a backslash is a slash."""
    url = re.sub("[\t\n\r]", "", url.strip("".join(map(chr, range(33))))).replace("\\", "/")
    return bool(re.match(r"[A-Za-z][A-Za-z0-9+.-]*:|//", url))


def may_stand(tag, around):
    """Whether a browser leaves an element where these are open, the innermost last."""
    kind = HEADINGS if tag in HEADINGS else {tag} & {"a"}
    parent = around[-1] if around else None
    return not kind & set(around) and (parent in HOLDERS[tag] if tag in HOLDERS else parent not in ALL_HOLDERS)


def is_safe(name, value):
    return {
        "href": lambda value: has_no_scheme_but({"http", "https", "mailto", "tel"}, value),
        "src": lambda value: has_no_scheme_but({"http", "https"}, value), "alt": lambda value: True, "title": lambda value: True,
        "class": lambda value: value in CLASSES or re.fullmatch(r"language-[^ \t\n\f\r]*", value),
        "id": lambda value: value.startswith("user-content-"), "start": str.isdigit,
        "align": lambda value: value in ("left", "center", "right"), "rel": lambda value: value == "nofollow ugc noopener",
        "type": lambda value: value == "checkbox", "disabled": lambda value: value == "", "checked": lambda value: value == "",
    }[name](value)


class Reader(HTMLParser):
    """Collects what a page of untrusted input must not have, by rules."""

    def __init__(self, rules):
        super().__init__(convert_charrefs=True)
        self.rules, self.prefix = rules, rules.prefix.decode()
        # what was found; the elements that are open; and each element with how deep it stands
        self.found, self.open, self.elements = [], [], []

    def handle_starttag(self, tag, attributes):
        self.elements.append((tag, len(self.open)))
        names = [name for name, _ in attributes]
        if tag not in TAGS or len(set(names)) < len(names):
            self.found.append(("tag", tag, names))
        for name, value in attributes:
            if name not in ATTRIBUTES.get(tag, ()) or value is None or not is_safe(name, value):
                self.found.append(("attribute", tag, name, value))
        leaves = not self.rules.bits & NO_REL and leaves_site(dict(attributes).get("href") or "")
        if tag == "a" and leaves != ("rel" in names):
            self.found.append(("rel", attributes))
        if tag == "img" and self.rules.bits & (IMAGE_LINKS | IMAGE_TEXTS):
            self.found.append(("image", attributes))
        if not (dict(attributes).get("id") or "user-content-" + self.prefix).startswith("user-content-" + self.prefix):
            self.found.append(("prefix", attributes))
        # (a code block is two elements, a head and its cells are four, and a reference to a footnote is two)
        if len(self.open) > 2 * self.rules.nesting + 1:
            self.found.append(("nesting", tag, len(self.open)))
        if tag not in VOID:
            if not may_stand(tag, self.open):
                self.found.append(("place", tag, *self.open))
            self.open.append(tag)
        elif tag == "input" and not {"disabled", "type"} <= set(names):
            self.found.append(("input", names))

    def handle_startendtag(self, tag, attributes):
        self.handle_starttag(tag, attributes)
        if tag not in VOID:
            self.found.append(("closed at once", tag))

    def handle_endtag(self, tag):
        if not self.open or self.open.pop() != tag:
            self.found.append(("end", tag))

    def handle_comment(self, data):
        self.found.append(("comment", data))

    handle_decl = handle_pi = unknown_decl = handle_comment


def elements_of(node, depth=0):
    """The elements in an element, in the order of their start tags, each with how deep it stands."""
    return [it for child in node for it in ((child.tag, depth), *elements_of(child, depth + 1))]


def moved_by_browsers(html, elements):
    """What of the HTML stands outside the element that it is put into, or of its elements elsewhere than its tags say, as a
    browser reads the page."""
    page = html5lib.parse(f"<!DOCTYPE html><body><div>{html}<u></u></div><i></i>", namespaceHTMLElements=False)
    body = page.find("body")
    is_whole = [(it.tag, it.tail) for it in body] == [("div", None), ("i", None)] and not body.text and not len(body[1])
    if not is_whole or body[0].find("u") is None:
        return [("leaves its element",)]
    return [] if elements_of(body[0]) == [*elements, ("u", 0)] else [("other elements",)]


def unsafe_parts(html, rules=Rules()):
    reader = Reader(rules)
    reader.feed(html)
    reader.close()
    found = reader.found + [("left open", tag) for tag in reader.open]
    if html5lib:
        found += moved_by_browsers(html, reader.elements)
    return found if GRAMMAR.fullmatch(html) else [*found, ("grammar",)]


SCHEMES = ["javascript:alert(1)", "vbscript:x", "data:text/html,<script>x</script>", "data:image/svg+xml;base64,PHN2Zz4=",
           "view-source:javascript:x", "feed:javascript:x", "blob:https://a/b", "file:///etc/passwd", "jar:x!/", "ws://a",
           "intent://a#Intent;end", "filesystem:http://a/b", "about:blank", "livescript:x", "mocha:x", "urn:x"]
TAGS_OF_OTHERS = ["<script>x()</script>", "<img src=x onerror=x()>", "<svg/onload=x()>", "<iframe src=javascript:x></iframe>",
                  "<math><mi xlink:href='javascript:x'>", "<style>@import 'a'</style>", "<base href=//a/>", "<form action=//a>",
                  "<!--><script>x()</script>-->", "<![CDATA[<script>x()</script>]]>", "<?php x() ?>", "<!DOCTYPE x>",
                  "<a href='javascript:x'>y</a>", "<b onclick=x()>", "</p></div></body>", "<textarea>", "<title>", "<noscript>",
                  "<plaintext>", "<xmp>", "<template>", "<p style='position:fixed'>", "<input autofocus onfocus=x()>", "<object>",
                  "<embed src=a>", "<link rel=stylesheet href=a>", "<meta http-equiv=refresh content='0;url=a'>", "<pre\n>",
                  "<details open ontoggle=x()>", "<x\ny=z>", "<a\n href=\"javascript:x\"\n>", "</a\n>"]
ENDS = ['" onmouseover="x()', "' onmouseover='x()", '"><script>x()</script>', "`onmouseover=x()`", "&quot; onclick=&quot;x()",
        "&#34;&#62;&#60;script&#62;", "\\\" onclick=\\\"x()", "x\" style=\"a:b", "\\<script\\>", "&lt;script&gt;", "&amp;lt;b&amp;gt;",
        "\u2028<b>", "\ufeff<b>", "\x00<b>", "\x0b<b>", "\x0c<b>", "\x7f\"", "\u00a0\"", "-->", "]]>", "<!--", "%22%3E", "&#x27;", "é\"ü"]


def spelled(scheme, at):
    """Returns a scheme in another spelling."""
    name, _, rest = scheme.partition(":")
    ways = [
        lambda: scheme, lambda: name.upper() + ":" + rest, lambda: "".join(at.choice((c, c.upper())) for c in name) + ":" + rest,
        lambda: "".join(f"&#{ord(c)};" for c in name) + ":" + rest, lambda: "".join(f"&#x{ord(c):x};" for c in name) + "&#58;" + rest,
        lambda: name + "&colon;" + rest, lambda: name + "&#0000058;" + rest, lambda: name + "\\:" + rest, lambda: name + "%3A" + rest,
        lambda: at.choice(["&#1;", "&#31;", " ", "&#9;", "&#10;", "&#32;", "\x01", "&#0;", "&#xfeff;", "&nbsp;", "\x0b"]) + scheme,
        lambda: name[:2] + at.choice(["&#9;", "&#10;", "&#13;", "\t", "&#0;", "&#1;", "%0a", "&Tab;", "&NewLine;", "\x0b"]) + name[2:] + ":" + rest,
        lambda: name + at.choice(["&#9;", "&#10;", " ", "\t", "&#0;"]) + ":" + rest, lambda: "//" + scheme, lambda: "\\\\" + scheme,
        lambda: "https:" + scheme, lambda: ":" + scheme, lambda: "?" + scheme, lambda: name.replace("s", "ſ") + ":" + rest,
    ]
    return at.choice(ways)()


def shaped(payload, at):
    """Returns a text with a payload somewhere in it."""
    scheme, end = spelled(at.choice(SCHEMES), at), at.choice(ENDS)
    shapes = [
        f"[a]({payload})", f"[a](<{payload}>)", f"![a]({payload})", f"![a {payload}](b)", f'[a](b "{payload}")', f"[a](b '{payload}')",
        f"[a](b ({payload}))", f"<{payload}>", f"[a]: {payload}\n\n[a]", f"[a]: <{payload}> \"{end}\"\n\n[a] ![a]", f"[{payload}][]",
        f"[{payload}]: b\n\n[{payload}]", f"```{payload}\nb\n```", f"~~~ {payload}\nb\n~~~", f"``` a\t{payload}\nb\n```", f"`{payload}`",
        f"    {payload}", f"# {payload}", f"# a {{#{payload} .{end} onclick={end}}}", f"a[^{payload}]\n\n[^{payload}]: b", f"[^a]: {payload}\n\n[^a]",
        f"[[{payload}]]", f"[[a|{payload}]]", f"[[{payload}|a]]", f"![[{payload}]]", f"${payload}$", f"$${payload}$$", f"^{payload}^", f"~{payload}~",
        f"> {payload}", f"- {payload}\n- [x] {end}", f"1234567. {payload}", f"a | b\n--|:-:\n{payload} | {end}", f"---\na: {payload}\n---\n\nb",
        f"+++\n{payload}\n+++", f"a\n: {payload}", f"> [!NOTE]\n> {payload}", f"*{payload}*_{end}_", f"![a](![b]({payload}))", f"[![a]({payload})]({scheme})",
        f"![a ![b]({payload}) c]({scheme} \"{end}\")", f"[a <{payload}> b](c)", f"[a](b)[{payload}]({scheme})", f"{payload}{end}", f"a  \n{payload}",
        f"<div>\n{payload}\n\n*b*</div>", f"<a href=\"\n{payload}\">", f"a <!-- {payload} --> b", f"a <!-- {payload}\n{end} --> b",
        f"<!-- {payload}\n{end}\n-->\n{payload}", f"<div>\n<!-- {end}\n{payload} --> {payload}\n</div>", f"<div>\n<!-- {payload}\n\n{end} -->",
        f"> <!-- {payload}\n\n{end}", f"<!-->{payload}-->", f"a <!--->{payload} -->", f"<scr<!-- {end} -->ipt>{payload}", f"<!-{payload}\n- {end}",
        f"a<br {payload}>b", f"<hr {payload}>", f"a<wbr\n{payload}/>b", f"<div>\n<BR {payload}/>\n<hr>{payload}\n</div>", f"a <hr> {payload}",
        f"[a <{scheme}> b]({payload})", f"[{payload} <http://a.b> <c@d.e>](f)", f"[a http://b.c {payload}](d)", f"[![a <{scheme}> b]({payload})](c)",
        f"[[a|b[^c] <{scheme}>]]\n\n[^c]: {payload}", f"[a[^{payload}]](b)\n\n[^{payload}]: c", f"[a <{scheme}> ![b]({payload})](//c)",
        f"[a](//{payload})", f"[a](/\\{payload})", f"[a]( <{payload}>)", f"\\{payload}", f"&{payload};", f"'{payload}' \"{end}\"", payload,
    ]
    return at.choice(shapes)


def texts(count):
    at = random.Random(20261126)
    for _ in range(count):
        payload = at.choice([spelled(at.choice(SCHEMES), at), at.choice(TAGS_OF_OTHERS), at.choice(ENDS)])
        text = shaped(payload, at)
        for _ in range(at.choice([0, 0, 1, 2])):
            other = at.choice([spelled(at.choice(SCHEMES), at), at.choice(TAGS_OF_OTHERS), at.choice(ENDS)])
            text = at.choice([lambda: shaped(text, at), lambda: text + "\n\n" + shaped(other, at), lambda: text + shaped(other, at)])()
        yield text


def main(path, count="20000"):
    library = Library(path)
    through, through_raw = dict.fromkeys(READINGS, 0), dict.fromkeys(READINGS, 0)
    at, through_rules = random.Random(20261201), 0
    for text in texts(int(count)):
        rules = Rules(at.choice([b"", b"17-", b'"<&>\xc3\xa9 ', b"\n"]), at.randrange(8), at.choice([0, 1, 2, 3, 5, 128]))
        made = library.made("markdown_safe_html_by_alloc", text, ALL_EXTENSIONS & ~OLD_FOOTNOTES, rules)
        found = unsafe_parts(made, rules)
        if found:
            through_rules += 1
            print(f"by the rules {rules.prefix!r}, {rules.bits}, {rules.nesting}: {text!r} {found}")
        for reading, options in READINGS.items():
            found = unsafe_parts(library.made("markdown_safe_html_alloc", text, options))
            if found:
                through[reading] += 1
                print(f"{reading}: {text!r} {found}")
            through_raw[reading] += bool(unsafe_parts(library.made("markdown_html_alloc", text, options)))
    for reading in READINGS:
        print(f"{reading}: of {count} texts {through[reading]} come through, by markdown_html_alloc {through_raw[reading]}")
    print(f"by rules: of {count} texts {through_rules} come through")
    sys.exit(bool(through_rules) or any(through.values()) or not all(through_raw.values()))


if __name__ == "__main__":
    main(*sys.argv[1:])
