#!/usr/bin/env python3
"""How fast archives of the library are beside each other, wherever their code lies. The processor fetches code in lines of 64 bytes, and
the place in a line at which the library's code begins can move a row of `bench` by a quarter; a change of the program around the library
changes it, too. So each archive is measured at four places, its code beginning 0, 16, 32 and 48 bytes past a multiple of 64.

    tools/archives.py ARCHIVE ARCHIVE ..

Prints Markdown: millions of steps a second, the archives in the order of the command line, at each place and on average, one run for
each number: from run to run a row of one program varies by up to a tenth, so a small difference wants several. Rows that one of the archives
hasn't are left out. For a machine that does nothing else. It needs cargo, cc, ld, ar and nm, and for each archive about three minutes.
"""
import os
import re
import shutil
import subprocess
import sys
import tempfile

PLACES = (0, 16, 32, 48)
HERE = os.path.join(os.path.dirname(os.path.abspath(__file__)), "..")

# Kept by the linker, although nothing refers to it.
PADDING = """.section .text.padding, "axR", @progbits
.balign 64
.skip {}
.section .note.GNU-stack, "", @progbits
"""

# A row of the table of `bench`: input, call, library.
ROW = re.compile(r"\| (.+?) \| (run|step; both through C functions) \| ([0-9.]+) \|")


def run(*words, **options):
    return subprocess.run(words, check=True, **options)


def features(archive):
    """What `bench` is built with for an archive: one from before N3 has no line tables, one from before N6 no bursts."""
    names = run("nm", archive, stdout=subprocess.PIPE, stderr=subprocess.DEVNULL, text=True).stdout
    known = (("lines", " T runtime_raise\n"), ("bursts", " T runtime_burst\n"))
    return ",".join(["library"] + [name for name, symbol in known if symbol in names])


def bench_at(archive, place, program, work):
    """Build the measuring program with this archive's code so many bytes past a multiple of 64."""
    padding, whole, moved, target = (os.path.join(work, name) for name in ("padding.o", "whole.o", "libmoved.a", "target"))
    run("cc", "-c", "-x", "assembler", "-", "-o", padding, input=PADDING.format(64 + place), text=True)
    run("ld", "-r", "-o", whole, padding, "--whole-archive", archive)
    run("ar", "rcs", moved, whole)
    build = ("cargo", "build", "--release", "--offline", "--quiet", "--no-default-features", "--features", features(archive))
    run(*build, "--bin", "bench", "--target-dir", target, cwd=HERE, env={**os.environ, "RUNTIME_ARCHIVE": moved})
    return shutil.copy(os.path.join(target, "release", "bench"), program)


def rows(bench):
    """Millions of steps a second, by input and call."""
    said = run(bench, stdout=subprocess.PIPE, text=True).stdout
    return {(name, call): float(library) for name, call, library in ROW.findall(said)}


def main(archives):
    archives = [os.path.abspath(archive) for archive in archives]
    with tempfile.TemporaryDirectory() as work:
        programs = {
            (place, number): bench_at(archive, place, os.path.join(work, f"bench-{place}-{number}"), work)
            for place in PLACES
            for number, archive in enumerate(archives)
        }
        measured = {key: rows(program) for key, program in programs.items()}
    print("| Input | Call | " + " | ".join(f"at {place}" for place in PLACES) + " | average |")
    print("|---|---|" + "---:|" * (len(PLACES) + 1))
    rows_of_all = [key for key in measured[PLACES[0], 0] if all(key in rows for rows in measured.values())]
    for name, call in rows_of_all:
        speeds = [[measured[place, number][name, call] for number in range(len(archives))] for place in PLACES]
        speeds.append([sum(column) / len(PLACES) for column in zip(*speeds)])
        cells = (", ".join(f"{speed:.1f}" for speed in cell) for cell in speeds)
        print(f"| {name} | {call} | " + " | ".join(cells) + " |")


if __name__ == "__main__":
    if len(sys.argv) < 2:
        print(__doc__)
        sys.exit(2)
    main(sys.argv[1:])
