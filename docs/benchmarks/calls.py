"""Calls of the static library beside those of md4c and cmark, on the same texts, as a table: `calls.py LIBRARY LIBC`.

LIBRARY is libmarkdown_c.a, LIBC the toolchain's liblibc_c.a. Instructions are counted by valgrind, for one call more;
microseconds, of the processor, are the best of seven runs of many calls, for one of them.
"""
import os
import re
import resource
import subprocess
import sys
import tempfile

HERE = os.path.dirname(os.path.abspath(__file__))
SIZES = {"1 KB": (1000, 20000), "100 KB": (100000, 200), "10 MB": (10000000, 2)}
KINDS = {"prose": "prose.py", "mixed documents": "mixed.py"}


def run(command, text, **kept):
    with open(text) as given:
        return subprocess.run(command, stdin=given, text=True, check=True, **kept)


def instructions(program, text):
    def of(count):
        counted = ["valgrind", "--tool=callgrind", "--callgrind-out-file=/dev/null", *program, str(count)]
        return int(re.search(r"Collected : (\d+)", run(counted, text, capture_output=True).stderr)[1])

    return of(2) - of(1)


def microseconds(program, text, count):
    def spent():
        used = resource.getrusage(resource.RUSAGE_CHILDREN)
        return used.ru_utime + used.ru_stime

    def of(count):
        start = spent()
        run([*program, str(count)], text, stdout=subprocess.DEVNULL)
        return spent() - start

    return (min(of(count + 1) for _ in range(7)) - min(of(1) for _ in range(7))) / count * 1e6


def main(library, libc):
    print("| Text | Library | Instructions in thousands | Ours to it | Microseconds |")
    print("|---|---|---|---|---|")
    with tempfile.TemporaryDirectory() as room:
        text, calls = os.path.join(room, "text.md"), os.path.join(room, "calls")
        include = os.path.join(HERE, "../../include")
        subprocess.run(
            ["cc", "-O2", "-I", include, os.path.join(HERE, "calls.c"), library, libc, "-lmd4c-html", "-lcmark", "-o", calls],
            check=True,
        )
        for kind, script in KINDS.items():
            for size, (count_of_bytes, count) in SIZES.items():
                with open(text, "w") as made:
                    subprocess.run([sys.executable, os.path.join(HERE, script), str(count_of_bytes)], stdout=made, check=True)
                ours = instructions([calls, "ours"], text)
                for name in ("ours", "cmark", "md4c"):
                    took = instructions([calls, name], text)
                    spent = microseconds([calls, name], text, count)
                    print(f"| {size} of {kind} | {name} | {took / 1000:.0f} | {ours / took:.2f} | {spent:.0f} |", flush=True)


if __name__ == "__main__":
    main(*sys.argv[1:])
