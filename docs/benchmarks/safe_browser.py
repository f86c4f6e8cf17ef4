"""Texts that attack, each rendered as untrusted input and read by a browser: `safe_browser.py SHARED_OBJECT [COUNT]`.

SHARED_OBJECT is made as `.ci/callers` makes it. The texts (8,000 by default) are those of `safe_attack.py`, each rendered in
the full reading with all extensions. Chromium reads pages of 200 of them, each text in a `div` of its own between two
sentinels, and follows each link. It tells

- whether a script would have run, or an address have been asked for that is no image's: the page's policy reports it;
- whether a sentinel has moved;
- the elements that it has of each text, in the order of their start tags, each with how deep it stands.

The elements are compared with the tags of the HTML as Python's parser reads them: they are the same, without an exception.
Prints what comes through, and how many texts do, also by `markdown_html_alloc`, a page at a time; exits with 1 where one comes
through, or where no page does by `markdown_html_alloc`, since then the texts attack nothing. `CHROMIUM` names the browser.
"""
import html
import json
import os
import subprocess
import sys
import tempfile
from html.parser import HTMLParser
from pathlib import Path

from safe_attack import ALL_EXTENSIONS, OLD_FOOTNOTES, VOID, Library, texts

PER_PAGE = 200
OPTIONS = ALL_EXTENSIONS & ~OLD_FOOTNOTES
# what runs before the texts: the policy, whose reports are kept
BEFORE = """<!DOCTYPE html><html><head><meta charset="utf-8">
<meta http-equiv="Content-Security-Policy"
    content="default-src 'none'; img-src *; script-src 'nonce-page'">
<script nonce="page">
const reports = [];
addEventListener("securitypolicyviolation", it => reports.push(it.violatedDirective + " " + it.blockedURI));
</script></head><body>
"""
# what runs after them: each element of a text with its depth, and whether both sentinels are where they were put
AFTER = """<script nonce="page">
function elements(node, depth) {
    return [...node.children].flatMap(it => [[it.localName, depth], ...elements(it, depth + 1)]);
}
function told(place) {
    const [before, text, after] = place.children;
    const stays = place.children.length == 3 && before.localName == "s" && !before.childNodes.length
        && text.localName == "div" && after.localName == "u" && !after.childNodes.length && place.parentNode == document.body;
    return [stays, text ? elements(text, 0) : []];
}
addEventListener("load", () => {
    for (const link of document.querySelectorAll("section a")) {
        link.addEventListener("click", it => { if (link.protocol != "javascript:") it.preventDefault(); });
        link.click();
    }
    setTimeout(() => {
        const answer = {reports, told: [...document.querySelectorAll("body > section")].map(told)};
        document.body.textContent = JSON.stringify(answer);
    }, 100);
});
</script></body></html>
"""


class Tags(HTMLParser):
    """The start tags of HTML with how deep they stand."""

    def __init__(self):
        super().__init__(convert_charrefs=True)
        self.found, self.open = [], []

    def handle_starttag(self, tag, attributes):
        self.found.append([tag, len(self.open)])
        if tag not in VOID:
            self.open.append(tag)

    def handle_startendtag(self, tag, attributes):
        self.handle_starttag(tag, attributes)

    def handle_endtag(self, tag):
        if self.open:
            self.open.pop()


def tags_of(rendered):
    reader = Tags()
    reader.feed(rendered)
    reader.close()
    return reader.found


def read_by_browser(rendered, folder):
    """What the browser tells of a page of texts, or None if it tells nothing."""
    page = Path(folder) / "page.html"
    places = "".join(f"<section><s></s><div>{it}</div><u></u></section>\n" for it in rendered)
    page.write_text(BEFORE + places + AFTER, encoding="utf-8")
    command = [os.environ.get("CHROMIUM", "chromium"), "--headless", "--no-sandbox", "--disable-gpu", f"--user-data-dir={folder}",
               "--host-resolver-rules=MAP * ~NOTFOUND", "--virtual-time-budget=10000", "--dump-dom", page.as_uri()]
    shown = subprocess.run(command, capture_output=True, text=True, timeout=120).stdout
    body = shown.partition("<body>")[2].partition("</body>")[0]
    try:
        return json.loads(html.unescape(body))
    except ValueError:
        return None


def is_calm(answer, count):
    """Whether the browser tells of each text of a page, and reports nothing."""
    return answer is not None and not answer["reports"] and len(answer["told"]) == count


def main(path, count="8000"):
    library = Library(path)
    given = list(texts(int(count)))
    through = through_raw = 0
    with tempfile.TemporaryDirectory() as folder:
        for at in range(0, len(given), PER_PAGE):
            some = given[at:at + PER_PAGE]
            raw = [library.made("markdown_html_alloc", text, OPTIONS) for text in some]
            through_raw += not is_calm(read_by_browser(raw, folder), len(some))
            rendered = [library.made("markdown_safe_html_alloc", text, OPTIONS) for text in some]
            answer = read_by_browser(rendered, folder)
            if not is_calm(answer, len(some)):
                through += 1
                print(f"texts {at} to {at + len(some) - 1}: {answer and answer['reports']!r}", flush=True)
            for text, made, (stays, elements) in zip(some, rendered, answer["told"] if answer else []):
                if not stays or elements != tags_of(made):
                    through += 1
                    print(f"{text!r} {made!r} {stays} {elements}", flush=True)
    pages = -(-len(given) // PER_PAGE)
    print(f"of {len(given)} texts {through} come through, and of {pages} pages by markdown_html_alloc {through_raw}")
    sys.exit(bool(through) or not through_raw)


if __name__ == "__main__":
    main(*sys.argv[1:])
