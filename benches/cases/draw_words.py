"""Random words of the command line."""
import solids
from obj import obj_text

WORDS = [b"copy", b"inside", b"run", b"--digits", b"--digits", b"--digits=4", b"--digits=0", b"--digits=", b"--digits=07",
         b"--digits=7", b"--digits=-1", b"--digits==4", b"--digits 4", b"--digit", b"--digit=4", b"--dig", b"-d", b"-d4",
         b"--Digits", b"--digits4", b"--", b"--", b"---", b"-", b"", b"a.obj", b"a.obj", b"u.obj", b"U.OBJ", b"u.stl",
         b"a.stl", b"x.ply", b"x", b".obj", b"obj", b"a.obj.", b"-a.obj", b"--a.obj", b"\xc3\xa9.obj", b"\xff.obj",
         b"none.obj", b"nodir/u.obj", b"dir.obj", b"s.txt", b"none.txt", b"0", b"1", b"4", b"-1", b"+1", b"1e1", b".5",
         b"5.", b"1e", b"nan", b"99999999999", b"--help", b"--version", b"-h", b"-V", b"help", b"COPY", b"Copy", b"copy ",
         b" copy", b"a.obj ", b"5", b"6", b"7", b"\xe2\x80\x94", b"-\xc3\xa9", b"=4", b"--=4", b"-="]
FILES = {"a.obj": obj_text(solids.box((0,) * 3, (10,) * 3), 0), "s.txt": b"load a a.obj\nsave a o.obj\n", "-a.obj": b"",
         "a.stl": b"solid\nendsolid\n"}


def operands_of(draw, command):
    """Operands that a command takes, of files that are there or not."""
    if command == b"copy":
        return [draw.choice([b"a.obj", b"none.obj", b"dir.obj", b"a.stl"]),
                draw.choice([b"u.obj", b"u.stl", b"nodir/u.obj", b"dir.obj"])]
    return [b"a.obj", b"5", b"4", b"3"] if command == b"inside" else [b"s.txt"]


def changed(draw, words):
    """One word more, another, or gone."""
    at, kind = draw.randint(0, len(words)), draw.random()
    if kind < 0.6:
        words.insert(at, draw.choice(WORDS))
    elif kind < 0.8 and words:
        words[at % len(words)] = draw.choice(WORDS)
    elif words:
        del words[at % len(words)]
    return words


def words(draw):
    """Words that are right, or nearly so, or just any."""
    if draw.random() < 0.35:
        return [draw.choice(WORDS) for _ in range(draw.randint(0, 6))]
    command = draw.choice([b"copy", b"inside", b"run"])
    some = [command] + operands_of(draw, command)
    for _ in range(draw.randint(0, 3)):
        some = changed(draw, some)
    if draw.random() < 0.3:
        at = draw.randint(0, len(some))
        some[at:at] = draw.choice([[b"--digits", b"0"], [b"--digits=6"], [b"--digits", b"x"], [b"--digits", b""],
                                   [b"--digits", b"--"], [b"--"]])
    return some
