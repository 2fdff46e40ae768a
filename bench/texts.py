#!/usr/bin/env python3
"""Lines of a script and the texts of turns: what bench/machine.py reads and says.

    python3 bench/texts.py < SCRIPT

prints each line that isn't empty as it is read, or where it is bad. The grammar, the texts and the limits are this
project's own, and this is a second reading of them: where a line goes wrong is computed from what is missing after its
beginnings, and not met on the way of a parser.
"""
import re
import sys
from typing import NamedTuple

sys.dont_write_bytecode = True  # no folders of compiled modules beside the sources

MOST_BYTES = 2**48  # of one file
LONGEST_LINE = 8192

REFUSALS = (
    "NoEntry NotDir IsDir Exists NotEmpty NameTooLong BadPath LinkLoop WrongKind FileTooBig NoSpace NoInodes ReadOnly "
    "IntoItself Reserved Device NoMemory Held SerialEnd NoSession BadLine"
).split()  # numbered from 1 on


# Replies and their texts


class Refused(Exception):
    """A refusal, by its name and the numbers that it carries."""

    def __init__(self, name, *numbers):
        super().__init__(name, *numbers)
        self.name, self.numbers = name, numbers

    def lines(self):
        words = ["error", REFUSALS.index(self.name) + 1, self.name]
        if self.name == "NoSpace":
            words += ["need", self.numbers[0], "free", self.numbers[1]]
        else:
            words += self.numbers
        return [" ".join(map(str, words))]


class Done(NamedTuple):
    def lines(self):
        return ["ok"]


class Rows(NamedTuple):
    rows: list  # pairs of an inode number and a name

    def lines(self):
        return [f"ok {len(self.rows)}"] + [f"{inode} {byte_word(name)}" for inode, name in self.rows]


class Stat(NamedTuple):
    number: int
    inode: "Inode"
    links: int

    def lines(self):
        inode = self.inode
        times = f"ftime {inode.ftime} mtime {inode.mtime} atime {inode.atime} ctime {inode.ctime}"
        return [
            f"ok {inode.body.kind} inode {self.number} size {inode.body.size} mode {inode.mode:04o} "
            f"uid {inode.uid} gid {inode.gid} links {self.links} {times}"
        ]


class Bytes(NamedTuple):
    data: bytes

    def lines(self):
        return [f"ok {len(self.data)}", byte_word(self.data)]


class Target(NamedTuple):
    target: bytes

    def lines(self):
        return [f"ok {byte_word(self.target)}"]


class Space(NamedTuple):
    blocks: int
    user: int
    free: int
    inodes: int
    free_inodes: int
    serial: int

    def lines(self):
        return [
            f"ok blocks {self.blocks} user {self.user} free {self.free} "
            f"inodes {self.inodes} free {self.free_inodes} serial {self.serial}"
        ]


class Turn(NamedTuple):
    """What a turn answers. At the input's end nobody asked, so that a Done isn't said there."""

    reply: object
    notices: tuple
    asked: bool = True


def turn_text(turn):
    lines = turn.reply.lines() if turn.asked or isinstance(turn.reply, Refused) else []
    return "".join(line + "\n" for line in [*lines, *turn.notices])


def is_plain(byte):
    """Whether a byte is printed as itself."""
    return 0x21 <= byte <= 0x7E and byte != 0x5C


def byte_word(data):
    return "".join(chr(byte) if is_plain(byte) else f"\\{byte:02x}" for byte in data)


# Lines of a script
#
# A kind of word says how many bytes are missing, at least, after a beginning of such a word; None where nothing
# completes it. So a whole word misses 0, and where a line goes wrong follows from what its beginnings miss.


class Keyword(NamedTuple):
    word: bytes

    def missing(self, text):
        return len(self.word) - len(text) if self.word.startswith(text) else None

    def value(self, text):
        return text.decode()


class Number(NamedTuple):
    """A decimal number from `low`, which is 0 or 1, to `high`, without a leading zero."""

    low: int = 0
    high: int = 2**64 - 1

    def missing(self, text):
        if not text:
            return 1
        if not re.fullmatch(rb"0|[1-9][0-9]*", text) or len(text) > 20:
            return None
        return 0 if self.low <= int(text) <= self.high else None

    def value(self, text):
        return int(text)


class Mode(NamedTuple):
    """One to four octal digits."""

    def missing(self, text):
        if not text:
            return 1
        return 0 if re.fullmatch(rb"[0-7]{1,4}", text) else None

    def value(self, text):
        return int(text, 8)


class Word(NamedTuple):
    """Bytes, at least one: plain ones, those from 128 on, or any byte as a backslash and two hexadecimal digits."""

    def missing(self, text):
        whole = re.match(rb"(?:[\x21-\x5b\x5d-\x7e\x80-\xff]|\\[0-9a-fA-F]{2})*", text).end()
        rest = text[whole:]
        if not rest:
            return 0 if text else 1
        return 3 - len(rest) if re.fullmatch(rb"\\[0-9a-fA-F]?", rest) else None

    def value(self, text):
        return re.sub(rb"\\(..)", lambda found: bytes([int(found[1], 16)]), text)


NUMBER, HALF, MODE, WORD = Number(), Number(high=2**32 - 1), Mode(), Word()

LOOKING = {"ls": [WORD], "stat": [WORD], "readlink": [WORD], "cat": [WORD, NUMBER, Number(high=65536)]}
CHANGING = {
    "create": [WORD],
    "mkdir": [WORD],
    "write": [WORD, NUMBER, WORD],
    "fill": [WORD, NUMBER, Number(1, MOST_BYTES), Number(high=255)],
    "truncate": [WORD, NUMBER],
    "rm": [WORD],
    "rmdir": [WORD],
    "mv": [WORD, WORD],
    "ln": [WORD, WORD],
    "symlink": [WORD, WORD],
    "chmod": [WORD, MODE],
    "chown": [WORD, HALF, HALF],
    "utime": [WORD, HALF, HALF],
}
OTHERS = {"cd": [WORD], "df": [], "hold": [], "unhold": [], "sync": [], "fsync": [WORD], "tick": [], "quit": []}
FORMS = [
    [Keyword(name.encode()), *kinds]
    for name, kinds in [("ls", []), *LOOKING.items(), *CHANGING.items(), *OTHERS.items()]
]


class Line(NamedTuple):
    session: int
    command: str
    arguments: tuple = ()


def missing_of_form(kinds, words):
    """What is missing after some words, the last of them perhaps a beginning, to have one word of each kind."""
    if len(words) > len(kinds) or any(kind.missing(word) != 0 for kind, word in zip(kinds, words[:-1])):
        return None
    last = kinds[len(words) - 1].missing(words[-1])
    return None if last is None else last + sum(1 + kind.missing(b"") for kind in kinds[len(words) :])


def missing_of_command(words):
    found = [missing_of_form(kinds, words) for kinds in FORMS]
    return min((number for number in found if number is not None), default=None)


def missing_of_line(text):
    """The least number of bytes that make a text a line with a reading, None where it begins no such line."""
    words = text.split(b" ")
    if not text.startswith(b"@"):
        return missing_of_command(words)
    number = NUMBER.missing(words[0][1:])
    if len(words) == 1:
        return None if number is None else number + 1 + missing_of_command([b""])
    return missing_of_command(words[1:]) if number == 0 else None


def begins_a_line(text):
    """Whether some line with a reading begins so; none is longer than a line may be."""
    missing = missing_of_line(text)
    return missing is not None and len(text) + missing <= LONGEST_LINE


def bad_at(line):
    """The length of the longest beginning of a line with a reading. All shorter beginnings are such ones too."""
    good, bad = 0, len(line) + 1
    while bad - good > 1:
        middle = (good + bad) // 2
        good, bad = (middle, bad) if begins_a_line(line[:middle]) else (good, middle)
    return good


def read_line(line):
    if len(line) > LONGEST_LINE:
        raise Refused("BadLine", LONGEST_LINE)
    if missing_of_line(line) != 0:
        raise Refused("BadLine", bad_at(line))
    words, session = line.split(b" "), 0
    if line.startswith(b"@"):
        session = int(words.pop(0)[1:])
    kinds = next(kinds for kinds in FORMS if len(kinds) == len(words) and missing_of_form(kinds, words) == 0)
    command, *arguments = (kind.value(word) for kind, word in zip(kinds, words))
    if command == "ls" and not arguments:
        arguments = [b"."]
    return Line(session, command, tuple(arguments))


def script_lines(script):
    """The lines that aren't empty, each with whether a newline ends it."""
    for found in re.finditer(rb"[^\n]+", script):
        yield found[0], found.end() < len(script)


def main():
    for text, _ in script_lines(sys.stdin.buffer.read()):
        try:
            line = read_line(text)
            print(line.session, line.command, *line.arguments)
        except Refused as refusal:
            print(*refusal.lines())


if __name__ == "__main__":
    main()
