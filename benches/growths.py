#!/usr/bin/env python3
"""Refuses the growths of memory of whole runs one after the other, since no clause says that a refused growth ends in want of memory and in nothing else.

For each run below, and each growth of memory that it asks for, the program runs once with this growth refused, by a library that stands before its allocator
(benches/growths/refuse.c). It must end with status 8 and the line of that, with a first part of the lines that it says otherwise, and each file must be as it was, or
as it is after the run. A run that needs less memory than it asks for may also end as ever.

Usage: benches/growths.py PROGRAM [RUN..]    needs cc; says how many growths of each run were refused, and ends with 1 where a run ended otherwise"""
import os
import shutil
import subprocess
import sys
import tempfile

HERE = os.path.dirname(os.path.abspath(__file__))
OBJ = b"g red\nv 0 0 0\nv 1 0 0\nv 0 1 0\nv 0 0 1\nv 9 9 9\nf 1 3 2\nf 1 2 4\nf 2 3 4\nf 3 1 4\nf 1 2 3 4\nf 4 3 2 1\n"
STL = b"""solid t
facet normal 0 0 0\nouter loop\nvertex 0 0 0\nvertex 0 1 0\nvertex 1 0 0\nendloop\nendfacet
facet normal 0 0 0\nouter loop\nvertex 0 0 0\nvertex 1 0 0\nvertex 0 1 0\nendloop\nendfacet
endsolid t
"""
SOLIDS = b"""box a 0 0 0 4 4 4
box b 1 1 1 5 5 5
box c 1 1 -1 3 3 5
subtract d a c
union e d b
measure e
inspect e
mirror f e x
exact
intersect g e a
tidy h g
remesh i h
save i u.obj
save i u.stl
"""
MOTIONS = b"""load a t.obj
load b t.stl
tetra c 0 0 0 6
prism d 0 0 0 4 5
lattice e 3 7
shift f c 1 2 3
scale g d 2
mirror h g x
turn i h y
union j i f
save j u.obj
"""
OUTLINES = b"""polygon a 0 0 10 0 10 10 0 10
polygon b 2 2 4 2 4 4 2 4
polygon c 6 4 20 4 20 7 6 7
subtract2 d a b
union2 e d c
intersect2 f e a
extrude g e 0 5
measure g
save g u.obj
"""
RUNS = {
    "copy": (["copy", "t.obj", "u.obj"], b""),
    "copy_stl": (["copy", "t.stl", "u.stl"], b""),
    "inside": (["inside", "t.obj", "--digits", "0", "--", "0", "0", "0"], b""),
    "solids": (["run", "s.txt", "--digits", "0"], SOLIDS),
    "motions": (["run", "s.txt", "--digits", "0"], MOTIONS),
    "outlines": (["run", "s.txt", "--digits", "0"], OUTLINES),
}


def done_in(folder, program, words, script, room):
    """How a run ends in a folder of its own: the status, both streams, and the files."""
    os.mkdir(folder)
    for name, text in (("t.obj", OBJ), ("t.stl", STL), ("s.txt", script)):
        with open(os.path.join(folder, name), "wb") as file:
            file.write(text)
    ended = subprocess.run([program] + words, cwd=folder, env=dict(os.environ, **room), stdout=subprocess.PIPE, stderr=subprocess.PIPE, stdin=subprocess.DEVNULL, check=False)
    files = {}
    for name in os.listdir(folder):
        with open(os.path.join(folder, name), "rb") as file:
            files[name] = file.read()
    shutil.rmtree(folder)
    return ended.returncode, ended.stdout, ended.stderr, files


def is_starved(ended, whole):
    """Whether a run ended for want of memory, with a first part of what it does otherwise."""
    status, out, err, files = ended
    return status == 8 and err == b"out of memory\n" and whole[1].startswith(out) and all(whole[3].get(name) == text for name, text in files.items())


def tried(folder, program, library, words, script):
    """How many growths of a run were refused, how many of these it could do without, and the numbers of those after which it ended otherwise."""
    told, room = os.path.join(folder, "told"), os.path.join(folder, "room")
    whole = done_in(room, program, words, script, {})
    if whole[0] != 0:
        return 0, 0, ["status %d without a refusal" % whole[0]]
    count = spared = 0
    faults = []
    while True:
        ended = done_in(room, program, words, script, {"LD_PRELOAD": library, "REFUSE": str(count + 1), "TOLD": told})
        if not os.path.exists(told):
            return count, spared, faults if ended == whole else faults + ["the last run"]
        os.remove(told)
        count += 1
        if ended == whole:
            spared += 1
        elif not is_starved(ended, whole):
            faults.append(count)


def main(words):
    """Tries the runs that are named, or all."""
    program, bad = os.path.abspath(words[0]), False
    with tempfile.TemporaryDirectory(prefix="manifold-growths-") as folder:
        library = os.path.join(folder, "refuse.so")
        subprocess.run(["cc", "-shared", "-fPIC", "-O1", "-o", library, os.path.join(HERE, "growths", "refuse.c"), "-ldl"], check=True)
        for name in words[1:] or RUNS:
            count, spared, faults = tried(folder, program, library, *RUNS[name])
            print("%s: %d growths refused one after the other, %d of them spared, %d runs ended otherwise %s" % (name, count, spared, len(faults), faults[:10] or ""), flush=True)
            bad = bad or bool(faults) or count == spared
    return 1 if bad else 0


if __name__ == "__main__":
    sys.exit(main(sys.argv[1:]))
