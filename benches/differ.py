#!/usr/bin/env python3
"""Runs the program and the reference of benches/reference on random cases, and compares them byte for byte: status, both streams, and all files.

Usage: benches/differ.py SEED COUNT [KIND..] [--program PROGRAM] [--only NUMBER] [--keep FOLDER] [--jobs N]

For each KIND COUNT cases are drawn; without a kind all of them:
  script    a script of operations, motions, outlines and the like, with the files that it loads
  lines     a script with lines that are at fault
  obj, stl  a file that is copied: in one of the many forms that are read, half of them damaged
  inside    a file and a place of which the winding number is asked
  words     words of the command line
A case is the same for the same seed, kind and number. Of a difference the folder is kept in FOLDER (differences/ where that is not given), with what was wanted,
what came, and the command that tries it again. PROGRAM is bin/manifold_tool where it is not given. It ends with 0 where there is no difference."""
import argparse
import multiprocessing
import os
import random
import shlex
import subprocess
import sys
import tempfile

HERE = os.path.dirname(os.path.abspath(__file__))
sys.path[:0] = [os.path.join(HERE, "reference"), os.path.join(HERE, "cases")]

import draw_meshes
import draw_scripts
import draw_texts
import draw_words
import program
from faults import Impossible
from grid import GRID
from outside import Folder

MOST_PAIRS = 20000      # of triangles of an operation that the reference is asked for


class TooMuch(Exception):
    """The reference would take too long."""


class Guarded(program.Program):
    """The reference, which gives up before an operation that would take long."""

    def do(self, step, digits):
        """One line of a script, if it is not too much."""
        sizes = [len(getattr(held, "triples", None) or held.points) for held in map(self.held.get, step.operands[1:3])
                 if held is not None] if step.command not in (b"save", b"measure", b"inspect", b"load") else []
        if len(sizes) == 2 and sizes[0] * sizes[1] > MOST_PAIRS or step.command in (b"tidy", b"remesh") and sizes[0] > 1500:
            raise TooMuch
        super().do(step, digits)


program.Program = Guarded


def with_digits(draw, words, digits):
    """The operands with an option for the digits at any place, or none for the usual ones."""
    if digits == 4 and draw.random() < 0.7:
        return words
    at = draw.randint(0, len(words))
    return words[:at] + draw.choice([[b"--digits", b"%d" % digits], [b"--digits=%d" % digits]]) + words[at:]


def copy_case(draw, kind):
    """A file of one format that is copied to either, half of the time with damages."""
    digits = draw.choice([4, 4, 0, 0, 1, 2, 3, 5, 6])
    is_damaged = draw.random() < 0.5
    mesh = draw_meshes.closed(draw, 5, 12) if is_damaged else draw_meshes.of_any_size(draw)
    text = (draw_texts.obj if kind == "obj" else draw_texts.stl)(draw, mesh, digits)
    if is_damaged and kind == "obj" and draw.random() < 0.1:
        text = draw_texts.nasty(draw)
    for _ in range(draw.randint(1, 3) if is_damaged else 0):
        text = draw_texts.damaged(draw, text)
    name = "a." + (kind if draw.random() < 0.9 else kind.upper())
    target = draw.choice([b"u.obj", b"u.obj", b"u.stl", b"U.OBJ"])
    return [b"copy"] + with_digits(draw, [name.encode(), target], digits), {name: text}


def place_near(draw, mesh):
    """A point of the grid on or near a mesh."""
    if not mesh.points:
        return (0, 0, 0)
    if draw.random() < 0.5:
        at = [draw.choice([c, c, draw.choice(mesh.points)[i]]) for i, c in enumerate(draw.choice(mesh.points))]
    else:
        at = [(draw.choice(mesh.points)[i] + draw.choice(mesh.points)[i]) // 2 for i in range(3)]
    return [max(-GRID, min(GRID, c + draw.choice([0, 0, 0, 1, -1]))) for c in at]


def inside_case(draw):
    """A file and a place on or near its mesh."""
    digits = draw.choice([4, 0, 0, 0, 2])
    kind = draw.choice(["obj", "obj", "stl"])
    mesh = draw_meshes.of_any_size(draw)
    text = draw_texts.obj(draw, mesh, digits, 0.3) if kind == "obj" else draw_texts.stl(draw, mesh, digits)
    numbers = [draw_texts.spelled(draw, c, digits) for c in place_near(draw, mesh)]
    name = "a." + kind
    return [b"inside"] + with_digits(draw, [], digits) + [b"--", name.encode()] + numbers, {name: text}


def case_of(kind, seed, number):
    """The words, files and folders of a case."""
    draw = random.Random("%s %d %d" % (kind, seed, number))
    if kind in ("script", "lines"):
        files, digits = (draw_scripts.script if kind == "script" else draw_scripts.damaged_script)(draw)
        return [b"run"] + with_digits(draw, [b"s.txt"], digits), files, []
    if kind == "words":
        return draw_words.words(draw), draw_words.FILES, ["dir.obj"] if draw.random() < 0.3 else []
    words, files = inside_case(draw) if kind == "inside" else copy_case(draw, kind)
    return words, files, []


def lay_out(folder, files, folders):
    """Puts files and folders into a folder."""
    for name in folders:
        os.mkdir(os.path.join(folder, name))
    for name, data in files.items():
        with open(os.path.join(folder, name), "wb") as file:
            file.write(data)


def files_in(folder):
    """All files of a folder, by name."""
    found = {}
    for name in os.listdir(folder):
        path = os.path.join(folder, name)
        if os.path.isfile(path):
            with open(path, "rb") as file:
                found[name] = file.read()
    return found


def wanted_of(folder, words):
    """What the reference does in a folder."""
    here = os.getcwd()
    os.chdir(folder)
    try:
        status, out, err = program.run(words, Folder())
    finally:
        os.chdir(here)
    return {"status": status, "standard output": out, "standard error": err, **files_in(folder)}


def got_of(folder, words, tool):
    """What the program does in a folder."""
    done = subprocess.run([os.fsencode(tool)] + words, cwd=folder, stdin=subprocess.DEVNULL, stdout=subprocess.PIPE,
                          stderr=subprocess.PIPE, timeout=60)
    return {"status": done.returncode, "standard output": done.stdout, "standard error": done.stderr, **files_in(folder)}


def try_case(task):
    """One case: its kind and number, and "same", "too much", or the text of the difference."""
    kind, seed, number, tool, keep = task
    words, files, folders = case_of(kind, seed, number)
    with tempfile.TemporaryDirectory() as one, tempfile.TemporaryDirectory() as two:
        for folder in (one, two):
            lay_out(folder, files, folders)
        try:
            wanted = wanted_of(one, words)
        except TooMuch:
            return kind, number, "too much"
        except Impossible as fault:
            wanted = {"impossible": repr(fault)}
        got = got_of(two, words, tool)
    if wanted == got:
        return kind, number, "same"
    again = "benches/differ.py %d 1 %s --only %d --program %s" % (seed, kind, number, shlex.quote(tool))
    return kind, number, kept(os.path.join(keep, "%s-%d-%d" % (kind, seed, number)), words, files, wanted, got, again)


def kept(folder, words, files, wanted, got, again):
    """Writes a difference down, and says where the first one is."""
    for part, some in (("input", files), ("wanted", wanted), ("got", got)):
        os.makedirs(os.path.join(folder, part), exist_ok=True)
        for name, data in some.items():
            with open(os.path.join(folder, part, name), "wb") as file:
                file.write(data if isinstance(data, bytes) else str(data).encode())
    with open(os.path.join(folder, "again.txt"), "w") as file:
        file.write("words %r\n%s\n" % (words, again))
    first = next(name for name in sorted(set(wanted) | set(got)) if wanted.get(name) != got.get(name))
    return "%s: %s differs; %s" % (folder, first, again)


def main():
    """Draws the cases, tries them side by side, and prints the differences."""
    usage = argparse.ArgumentParser(description=__doc__, formatter_class=argparse.RawDescriptionHelpFormatter)
    usage.add_argument("seed", type=int)
    usage.add_argument("count", type=int)
    usage.add_argument("kinds", nargs="*", default=["script", "lines", "obj", "stl", "inside", "words"])
    usage.add_argument("--program", default=os.path.join(os.path.dirname(HERE), "bin", "manifold_tool"))
    usage.add_argument("--only", type=int)
    usage.add_argument("--keep", default="differences")
    usage.add_argument("--jobs", type=int, default=os.cpu_count())
    asked = usage.parse_args()
    numbers = range(asked.count) if asked.only is None else [asked.only]
    tool, keep = os.path.abspath(asked.program), os.path.abspath(asked.keep)
    tasks = [(kind, asked.seed, number, tool, keep) for number in numbers for kind in asked.kinds]
    with multiprocessing.Pool(asked.jobs) as pool:
        done = list(pool.imap_unordered(try_case, tasks, 4))
    faults = [said for _, _, said in done if said not in ("same", "too much")]
    for said in faults:
        print(said)
    much = sum(said == "too much" for _, _, said in done)
    print("differ: %d cases, %d different, %d passed over as too much for the reference" % (len(done), len(faults), much))
    return 1 if faults else 0


if __name__ == "__main__":
    sys.exit(main())
