"""The pictures of the first page: `pictures.py PROGRAM [--draw]` measures PROGRAM (a built `markdown_html`) beside `cmark`,
`cmark-gfm`, `pulldown-cmark` and `md4c`, prints the numbers, and with `--draw` writes `docs/speed.svg` and `docs/growth.svg`.

Speed is the time of the processor for a megabyte of documents (`documents.py`), the least of nine runs. Growth is the same for
one run of `hostile.py blank-below-items`, blank lines below nested items, at doubling sizes, as far as a run takes under
five seconds. No program has an extension enabled. It needs Debian's packages of the four and a C compiler.
"""
import math
import os
import subprocess
import sys
import tempfile

HERE = os.path.dirname(os.path.abspath(__file__))
DOCUMENTS, GROWING = 4_000_000, "blank-below-items"
SIZES = [5_000 * 2**n for n in range(8)]
LONGEST = 5
STYLE = """<style>
text { font: 13px system-ui, sans-serif; fill: #1f2328; }
.quiet { fill: #59636e; } .line { stroke: #d1d9e0; } .other { fill: #8c959f; stroke: #8c959f; } .ours { fill: #0969da; stroke: #0969da; }
text.ours, text.other { stroke: none; } polyline { fill: none !important; stroke-width: 2; }
@media (prefers-color-scheme: dark) {
  text { fill: #f0f6fc; } .quiet { fill: #9198a1; } .line { stroke: #3d444d; } .ours { fill: #4493f8; stroke: #4493f8; }
}
</style>"""


def made(script, *words):
    return subprocess.run([sys.executable, f"{HERE}/{script}", *map(str, words)], stdout=subprocess.PIPE, check=True).stdout


def seconds(program, path):
    """The time of the processor for one run."""
    with open(path) as text:
        child = subprocess.Popen(program, stdin=text, stdout=subprocess.DEVNULL)
        _, status, used = os.wait4(child.pid, 0)
        child.returncode = os.waitstatus_to_exitcode(status)
    if child.returncode:
        sys.exit(f"{program[0]} ends with {child.returncode}")
    return used.ru_utime + used.ru_stime


def speeds(programs, room):
    path = f"{room}/documents.md"
    with open(path, "wb") as file:
        file.write(made("documents.py", DOCUMENTS))
    size = os.path.getsize(path) / 1e6
    return {name: min(seconds(words, path) for _ in range(9)) / size * 1e3 for name, words in programs.items()}


def growths(programs, room):
    found = {name: [] for name in programs}
    for size in SIZES:
        path = f"{room}/growing.md"
        with open(path, "wb") as file:
            file.write(made("hostile.py", GROWING, size))
        for name, words in programs.items():
            if not found[name] or len(found[name]) == SIZES.index(size) and found[name][-1] * 4 < LONGEST:
                found[name].append(seconds(words, path))
    return found


def tone(name):
    return "ours" if name == "this" else "other"


def picture(width, height, title, parts):
    head = f'<svg xmlns="http://www.w3.org/2000/svg" viewBox="0 0 {width} {height}" width="{width}" role="img" aria-label="{title}">'
    return "\n".join([head, STYLE, f'<text x="8" y="20">{title}</text>', *parts, "</svg>\n"])


def bars(numbers):
    """A bar for each program, the shortest first."""
    parts, most = [], max(numbers.values())
    for row, (name, value) in enumerate(sorted(numbers.items(), key=lambda it: it[1])):
        y, length = 34 + row * 26, 380 * value / most
        parts += [
            f'<text x="118" y="{y + 14}" text-anchor="end">{name}</text>',
            f'<rect class="{tone(name)}" x="126" y="{y}" width="{length:.0f}" height="18" rx="2"/>',
            f'<text class="quiet" x="{132 + length:.0f}" y="{y + 14}">{value:.1f}</text>',
        ]
    return picture(560, 40 + 26 * len(numbers), "Milliseconds of a processor for a megabyte of documents", parts)


def lines(numbers):
    """A line for each program, both axes by powers of two."""
    left, right, top, bottom = 60, 470, 40, 300
    times = [it for those in numbers.values() for it in those]
    low, high = math.floor(math.log10(min(times))), math.ceil(math.log10(max(times)))
    x = lambda at: left + (right - left) * at / (len(SIZES) - 1)
    y = lambda time: bottom - (bottom - top) * (math.log10(time) - low) / (high - low)
    parts = []
    for power in range(low, high + 1):
        parts += [
            f'<line class="line" x1="{left}" x2="{right}" y1="{y(10**power):.0f}" y2="{y(10**power):.0f}"/>',
            f'<text class="quiet" x="{left - 8}" y="{y(10**power) + 4:.0f}" text-anchor="end">{10.0**power:g} s</text>',
        ]
    for at in range(0, len(SIZES), 2):
        parts.append(f'<text class="quiet" x="{x(at):.0f}" y="{bottom + 20}" text-anchor="middle">{SIZES[at] // 1000} KB</text>')
    below = {}
    for name, times in sorted(numbers.items(), key=lambda it: it[1][-1]):
        points = " ".join(f"{x(at):.0f},{y(time):.0f}" for at, time in enumerate(times))
        end = y(times[-1]) + 4
        while any(abs(end - other) < 15 and len(times) == count for other, count in below.items()):
            end -= 15
        below[end] = len(times)
        parts += [
            f'<polyline class="{tone(name)}" points="{points}"/>',
            f'<text class="{tone(name)}" x="{x(len(times) - 1) + 6:.0f}" y="{end:.0f}">{name}</text>',
        ]
    return picture(590, 330, "Time of a processor for blank lines below nested items, by the size of the text", parts)


def main():
    draw, words = "--draw" in sys.argv, [it for it in sys.argv[1:] if it != "--draw"]
    with tempfile.TemporaryDirectory() as room:
        subprocess.run(["cc", "-O2", f"{HERE}/md4c.c", "-lmd4c-html", "-o", f"{room}/md4c"], check=True)
        programs = {
            "this": words,
            "cmark": ["cmark", "--unsafe"],
            "cmark-gfm": ["cmark-gfm", "--unsafe"],
            "pulldown-cmark": ["pulldown-cmark"],
            "md4c": [f"{room}/md4c"],
        }
        speed, growth = speeds(programs, room), growths(programs, room)
    for name in programs:
        print(f"{name}: {speed[name]:.1f} ms for a megabyte; growth {' '.join(f'{it:.3f}' for it in growth[name])} s")
    if draw:
        for file, text in (("speed.svg", bars(speed)), ("growth.svg", lines(growth))):
            with open(f"{HERE}/../{file}", "w") as svg:
                svg.write(text)


main()
