"""Reads scripts, replies and reports as the program does, byte by byte, for the scripts beside this file.

Bytes are held as the characters of the same numbers, so that nothing is lost. A line ends at a newline alone, words are parted by spaces
alone, and one carriage return at the end of a script's line is dropped.
"""
import re
import sys
from dataclasses import dataclass, field

MOST = 2**64
VERBS = ("begin", "asof", "get", "insert", "update", "delete", "sum", "count", "scan", "find", "commit", "abort")
WIDTH = {"begin": 2, "count": 2, "scan": 2, "commit": 2, "abort": 2, "asof": 3, "get": 3, "delete": 3, "sum": 3, "find": 4}
# The options of a store: the least and the greatest number, and the one where none is named.
OPTIONS = {"columns": (1, 8, 2), "ranges": (1, 64, 4), "tails": (1, 16384, 4096), "sessions": (1, 16, 4), "txns": (1, 65535, 4096), "spare": (1, 64, 8), "index": (0, 7, None)}


class Fault(Exception):
    """The first faulty line of a text, and the program's words for it."""

    def __init__(self, line, text):
        super().__init__(f"line {line}: {text}")
        self.line, self.text = line, text


@dataclass
class Call:
    """A line of a script that is none of those that are skipped."""

    line: int
    verb: str  # a call's word, or merge or phase
    session: int = -1
    key: int = -1
    column: int = -1
    number: int = -1  # the time of an as-of, the value of a find, the range of a merge
    cells: list = field(default_factory=list)  # of a write: None for null, "_" for a column that is kept


@dataclass
class Script:
    names: list  # those of the columns, or none
    calls: list


@dataclass
class Reply:
    session: int  # -1 of a merge
    kind: str
    numbers: tuple = ()
    rows: list = field(default_factory=list)
    line: int = 0


def bytes_of(name):
    """The bytes of a file, or of the standard input for -, as characters."""
    if name == "-":
        return sys.stdin.buffer.read().decode("latin-1")
    with open(name, "rb") as file:
        return file.read().decode("latin-1")


def shown(text):
    """A text as it is shown: UTF-8 where it is that, and a mark for other bytes and for those that steer a terminal."""
    text = text.encode("latin-1").decode("utf-8", errors="replace")
    return "".join(it if it.isprintable() else "\ufffd" for it in text)


def parts_of(text):
    """The parts of a text between its newlines, but for an empty last one."""
    parts = text.split("\n")
    return parts[:-1] if parts[-1] == "" else parts


def lines_of(text):
    """The lines of a script: one carriage return at the end of each is dropped."""
    return [it[:-1] if it.endswith("\r") else it for it in parts_of(text)]


def words_of(line):
    return [it for it in line.split(" ") if it]


def is_skipped(line):
    words = words_of(line)
    return not words or words[0].startswith("#")


def options_of(words, more=None):
    """The numbers of the options in a command line's words, with defaults, or None where they are none; more has further options."""
    known = {**OPTIONS, **(more or {})}
    found, words = {}, list(words)
    while words:
        name, equals, number = words.pop(0).partition("=")
        if not equals:
            number = words.pop(0) if words else ""
        least, most, _ = known.get(name[2:] if name.startswith("--") else "", (1, 0, None))
        if not re.fullmatch("[0-9]{1,20}", number) or not least <= int(number) <= most or name[2:] in found:
            return None
        found[name[2:]] = int(number)
    options = {name: found.get(name, default) for name, (_, _, default) in known.items()}
    return options if options["index"] is None or options["index"] < options["columns"] else None


# ---- scripts


def number_of(word, line):
    if not re.fullmatch("[0-9]{1,20}", word) or int(word) >= MOST:
        raise Fault(line, "bad number")
    return int(word)


def header_of(words, line, columns):
    if words[1:2] != ["2"]:
        raise Fault(line, "unknown version")
    names = words[2:]
    if len(names) != columns:
        raise Fault(line, "wrong number of words")
    for place, name in enumerate(names):
        if not re.fullmatch("[a-z][a-z0-9_]{0,15}", name) or name in names[:place]:
            raise Fault(line, "bad column name")
    return names


def column_of(word, line, names, columns):
    if names is None:
        if int(word) >= columns:
            raise Fault(line, "no such column")
        return int(word)
    if word not in names:
        raise Fault(line, "no such column")
    return names.index(word)


def numbered(call, words, line):
    """The cells of a write without names."""
    row = [it if it == "_" and call.verb == "update" else number_of(it, line) for it in words]
    if call.verb == "update" and all(it == "_" for it in row):
        raise Fault(line, "nothing to set")
    return row


def paired(call, words, line, names):
    """The cells of a write by pairs of a name and a number."""
    row, seen = [None if call.verb == "insert" else "_"] * len(names), set()
    for word in words:
        name, equals, value = word.partition("=")
        if not equals:
            raise Fault(line, "bad pair")
        place = column_of(name, line, names, len(names))
        if place in seen:
            raise Fault(line, "repeated column")
        seen.add(place)
        row[place] = None if value == "null" else number_of(value, line)
    if call.verb == "update" and not words:
        raise Fault(line, "nothing to set")
    return row


def merge_of(words, line, names, limits):
    if len(words) != 3:
        raise Fault(line, "wrong number of words")
    range_ = number_of(words[1], line)
    if names is None:
        number_of(words[2], line)
    if range_ >= limits["ranges"]:
        raise Fault(line, "no such range")
    return Call(line, "merge", number=range_, column=column_of(words[2], line, names, limits["columns"]))


def call_of(words, line, names, limits):
    """The line that these words are, or its fault."""
    if words[0] == "phase" and len(words) > 1:
        raise Fault(line, "wrong number of words")
    if words[0] == "phase":
        return Call(line, "phase")
    if words[0] == "merge":
        return merge_of(words, line, names, limits)
    if words[0][0] not in "0123456789":
        raise Fault(line, "unknown word")
    if number_of(words[0], line) >= limits["sessions"]:
        raise Fault(line, "no such session")
    if len(words) < 2:
        raise Fault(line, "wrong number of words")
    if words[1] not in VERBS:
        raise Fault(line, "unknown word")
    call = Call(line, words[1], int(words[0]))
    columns, is_row = limits["columns"], call.verb in ("insert", "update")
    most = 3 + columns if is_row else WIDTH[call.verb]
    if not (3 if is_row and names is not None else most) <= len(words) <= most:
        raise Fault(line, "wrong number of words")
    if is_row or call.verb in ("get", "delete"):
        call.key = number_of(words[2], line)
    if is_row:
        call.cells = numbered(call, words[3:], line) if names is None else paired(call, words[3:], line, names)
    if call.verb == "asof":
        call.number = number_of(words[2], line)
    if call.verb in ("sum", "find"):
        for word in words[2 if names is None else 3 :]:
            number_of(word, line)
        call.column = column_of(words[2], line, names, columns)
        call.number = int(words[3]) if call.verb == "find" else -1
    return call


def script_of(lines, limits):
    """Reads the lines of a script, or raises its first fault."""
    names, calls, is_first = None, [], True
    for number, line in enumerate(lines, 1):
        if len(line) > 1024:
            raise Fault(number, "line too long")
        if is_skipped(line):
            continue
        words = words_of(line)
        if is_first and words[0] == "version":
            names = header_of(words, number, limits["columns"])
        else:
            calls.append(call_of(words, number, names, limits))
        is_first = False
    return Script(names, calls)


# ---- replies


class Unread(Exception):
    """A line is no reply."""


def plain(word, most=MOST):
    """The number that a word of a report is: without leading zeros."""
    if not re.fullmatch("0|[1-9][0-9]*", word) or int(word) >= most:
        raise Unread
    return int(word)


def cells_of(words, columns):
    if len(words) != columns:
        raise Unread
    return [None if it == "null" else plain(it) for it in words]


def entry_of(word, columns):
    key, colon, row = word.partition(":")
    if not colon:
        raise Unread
    return plain(key), cells_of(row.split(","), columns)


NUMBERED = {"begun": MOST, "committed": MOST, "ended": MOST, "count": MOST, "sum": 2**128}
NAMED = {"refused": ("idle", "active", "readonly", "spent", "missing", "exists", "noindex"), "full": ("table", "tail"), "conflict": ("latched",)}
MERGED = {"merged": "merged", "idle": "nothing", "noframe": "noframe"}
TIMED = {"refused": ("future",), "conflict": ("newer", "stale")}


def reply_in(words, columns):
    """The kind, numbers and rows of a reply to a call."""
    name, rest = words[0], words[1:]
    if not rest and name in ("ok", "none", "aborted"):
        return name, (), []
    if len(rest) == 1 and rest[0] in NAMED.get(name, ()):
        return rest[0], (), []
    if len(rest) == 1 and name in NUMBERED:
        return name, (plain(rest[0], NUMBERED[name]),), []
    if len(rest) == 2 and rest[0] in TIMED.get(name, ()):
        return rest[0], (plain(rest[1]),), []
    if len(rest) == 3 and (name, rest[0]) == ("conflict", "open"):
        return "open", (plain(rest[1], 2**32), plain(rest[2], 2**32)), []
    if name == "row":
        return name, (), cells_of(rest, columns)
    if name == "rows":
        return name, (), [entry_of(it, columns) for it in rest]
    if name == "keys":
        return name, (), [plain(it) for it in rest]
    raise Unread


def reply_of(line, columns):
    """The reply that a line is; raises Unread where it is none."""
    words = line.split(" ")
    if len(words) == 2 and words[0] in MERGED:
        return Reply(-1, MERGED[words[0]], (plain(words[1], 2**32),))
    session = plain(words[0], 2**32)
    if len(words) < 2:
        raise Unread
    return Reply(session, *reply_in(words[1:], columns))


def report_of(text, columns, before):
    """Reads the replies and the commits of a report; before is the number of lines that stand before it."""
    lines, replies, stamps = parts_of(text), [], []
    try:
        for line in lines:
            replies.append(reply_of(line, columns))
            replies[-1].line = before + len(replies)
    except Unread:
        pass
    at = len(replies)
    try:
        words = lines[at].split(" ")
        if len(words) != 2 or words[0] != "history":
            raise Unread
        count, at = plain(words[1]), at + 1
        for time, line in enumerate(lines[at : at + count], 1):
            words = line.split(" ")
            if len(words) != 4 or words[0] != str(time):
                raise Unread
            stamps.append((plain(words[1], 2**32), plain(words[2], 2**32), plain(words[3])))
            at += 1
        if at != len(lines) or len(stamps) != count:
            raise Unread
    except (IndexError, Unread):
        raise Fault(before + at + 1, "bad report line") from None
    return replies, stamps


def claim_of(text, limits):
    """Reads a script, the line report and a report, and tells the number of the line that ends the replies."""
    lines = lines_of(text)
    if "report" not in lines:
        script_of(lines, limits)
        raise Fault(len(lines) + 1, "no report")
    at = lines.index("report")
    script = script_of(lines[:at], limits)
    rest = "\n".join(text.split("\n")[at + 1 :])
    replies, stamps = report_of(rest, limits["columns"], at + 1)
    return script, replies, stamps, at + 1 + len(replies) + 1
