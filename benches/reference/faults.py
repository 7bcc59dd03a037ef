"""Why a run ends before its last line: one class for each cause, and the words that name it."""

KINDS = {
    1: b"UnknownLine", 2: b"BadVertex", 3: b"BadNumber", 4: b"OutOfGrid", 5: b"BadFace", 6: b"BadIndex",
    7: b"FaceRepeatsVertex", 10: b"NotStl", 11: b"OpenEdge", 15: b"OutOfGrid", 16: b"FlatSolid",
    20: b"BadWord", 21: b"WrongCount", 22: b"BadName", 23: b"NameNotDefined", 24: b"BadNumber", 25: b"BadSuffix",
}


class Failed(Exception):
    """A file or a stream could not be read or written."""


class NotANumber(Exception):
    """A word is no number."""


class OffGrid(Exception):
    """A number is beyond the ends of the grid."""


class TextFault(Exception):
    """A line of a mesh file is at fault: its number, from 1, and the kind."""

    def __init__(self, line, kind):
        super().__init__(line, kind)
        self.line, self.kind = line, kind


class ScriptFault(TextFault):
    """A line of a script is at fault."""


class Over(Exception):
    """A number of things exceeds its limit."""

    def __init__(self, what, seen):
        super().__init__(what, seen)
        self.what, self.seen = what, seen


class OpenEdge(Exception):
    """More edges run from the start to the end than back."""

    def __init__(self, start, end):
        super().__init__(start, end)
        self.start, self.end = start, end


class NotMade(Exception):
    """A solid or a motion is not possible: it is flat, or leaves the grid."""

    def __init__(self, kind):
        super().__init__(kind)
        self.kind = kind


class Ended(Exception):
    """The end of a run other than the good one: a status and the line that it says."""

    def __init__(self, status, line):
        super().__init__(status, line)
        self.status, self.line = status, line


class Impossible(Exception):
    """What is proved of every run did not hold: the reference or the proof is wrong."""
