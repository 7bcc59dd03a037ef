"""Lines and words of texts, and the names of files."""
import re

MARK = b"\xef\xbb\xbf"  # may stand at the start of a file, and is passed over


def without_mark(data):
    """The bytes after the mark that may stand at the start of a file."""
    return data[len(MARK):] if data.startswith(MARK) else data


def lines_of(data):
    """All lines, each without the carriage return at its end. Bytes after the last line feed are a line."""
    parts = data.split(b"\n")
    if parts[-1] == b"":
        parts.pop()
    return [part[:-1] if part.endswith(b"\r") else part for part in parts]


def words_of(line):
    """The longest runs without spaces and tabs."""
    return [word for word in re.split(rb"[ \t]+", line) if word]


def without_comment(words):
    """The words before the first one that begins with #."""
    marks = [place for place, word in enumerate(words) if word.startswith(b"#")]
    return words[:marks[0]] if marks else words


def format_of(name):
    """The format that the end of a file's name says: obj, stl or none."""
    end = name[-4:].lower()
    return {b".obj": "obj", b".stl": "stl"}.get(end)


def is_utf8(word):
    """Whether a word is UTF-8."""
    try:
        word.decode("utf-8")
        return True
    except UnicodeDecodeError:
        return False
