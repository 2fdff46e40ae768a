#!/usr/bin/env python3
"""Says what `qx6 shell` puts for a script, on trees and numbers alone: a second reading of its rules, for tests.

    python3 bench/machine.py --blocks N --blocksize B --inodes I [options] < SCRIPT

The start is the mount of the volume as the maker leaves it, with so many blocks and inodes. There is no image, no cache
and no device: a block is an id that is never used again, a directory a list of rows, a file some pieces of bytes.

    --moments M,M,..    what the clock says: at the mount, then at each turn, the last one again and again (1000)
    --made M            the moment at which the volume was made (1000)
    --serial S          the serial of the active area (2)
    --read-only         as `shell -r`
    --fail K,K,..       these writes of snapshots fail; each step that is tried counts, from 0 on
    --workload N        the summary of `shell -g N` in place of a script's output

The exit status is the shell's: 0, or 3 where the last turn met a failing device, or 6 past the limit of a script.

Where the rules come from: what a node's positions are and which blocks a change takes follows the format's description;
kinds, modes, links and what a rename may do follow POSIX where nothing else is said; the order of refusals, sessions,
holds, the reserve and the times of snapshots are this project's own, as are the lines and texts of bench/texts.py. It
was written from their description in words, and shares no line with the program or with the model on which the program
is proved.

Not here: want of memory; special files and long records of short names, which the maker's volume never comes to have.
"""
import argparse
import os
import sys
from bisect import bisect_right
from dataclasses import dataclass, replace
from typing import NamedTuple

sys.dont_write_bytecode = True  # no folders of compiled modules beside the sources
sys.path.insert(0, os.path.dirname(os.path.abspath(__file__)))
from texts import CHANGING, MOST_BYTES, OTHERS, Bytes, Done, Line, Refused, Rows, Space, Stat, Target, Turn
from texts import read_line, script_lines, turn_text

ROOT = 1  # the root directory's inode
LONGFILE = 0  # the owner that stands for the tree of long names
INODE_SIZE = 128
RECORD_SIZE = 32
LONGEST_SHORT = 27  # bytes of a name that stands in its record
LONGEST_NAME = 510
LONGEST_PATH = 1023
MOST_LINKS = 16  # followed in one walk
SESSIONS = 16
SCRIPT_LIMIT = 2**24
RESERVE = 16  # free blocks that only a removing operation may take
INTERVAL = 10  # seconds from a begin to the next timed one
STEPS_A_TURN = 4
LAST_SERIAL = 2**64 - 1

# Sets of numbers


class Runs:
    """A set of numbers, kept as runs of neighbours: a fill may name 2^39 leaves before it is refused."""

    __slots__ = ("pairs",)

    def __init__(self, pairs=()):
        """From pairs of a first number and an end, in any order; they may meet."""
        merged = []
        for first, end in sorted(pair for pair in pairs if pair[0] < pair[1]):
            if merged and first <= merged[-1][1]:
                merged[-1] = (merged[-1][0], max(end, merged[-1][1]))
            else:
                merged.append((first, end))
        self.pairs = tuple(merged)

    @classmethod
    def of(cls, numbers):
        return cls((number, number + 1) for number in numbers)

    def __eq__(self, other):
        return self.pairs == other.pairs

    def __hash__(self):
        return hash(self.pairs)

    def __iter__(self):
        for first, end in self.pairs:
            yield from range(first, end)

    def __contains__(self, number):
        place = bisect_right(self.pairs, (number, float("inf"))) - 1
        return place >= 0 and number < self.pairs[place][1]

    def __or__(self, other):
        return Runs(self.pairs + other.pairs)

    def __sub__(self, other):
        rest, begin = [], 0
        for first, end in self.pairs:
            while begin < len(other.pairs) and other.pairs[begin][1] <= first:
                begin += 1
            at = begin
            while at < len(other.pairs) and other.pairs[at][0] < end:
                rest.append((first, other.pairs[at][0]))
                first = other.pairs[at][1]
                at += 1
            rest.append((first, end))
        return Runs(rest)

    def __and__(self, other):
        return self - (self - other)

    def count(self):
        return sum(end - first for first, end in self.pairs)

    def parents(self, children):
        """The numbers of those that have these among their so many children."""
        return Runs((first // children, (end - 1) // children + 1) for first, end in self.pairs)


# The volume


class Volume(NamedTuple):
    """The numbers of a volume, and what its layout makes of them."""

    blocks: int
    blocksize: int
    inodes: int

    @classmethod
    def of_size(cls, size, blocksize=512, inodes=None):
        """What the maker makes of a size in bytes."""
        if inodes is None:
            inodes = min(max(size // 4096, 16), 2**20)
        return cls((size // 4096 * 4096 - 0x4000) // blocksize, blocksize, inodes)

    @property
    def pointers(self):
        """The pointers in a block."""
        return self.blocksize // 4

    @property
    def bitmap_leaves(self):
        return up(up(self.blocks, 8), self.blocksize)

    @property
    def inode_leaves(self):
        return up(self.inodes * INODE_SIZE, self.blocksize)

    @property
    def half(self):
        """The blocks of one area's bitmap and Inode tree, with their pointer blocks."""
        return self.system_blocks(self.bitmap_leaves) + self.system_blocks(self.inode_leaves)

    @property
    def user(self):
        return self.blocks - 2 * self.half

    def levels(self, leaves):
        """The least levels of pointer blocks below 16 root pointers that reach so many leaves."""
        level = 0
        while 16 * self.pointers**level < leaves:
            level += 1
        return level

    def system_blocks(self, leaves):
        return leaves + sum(up(leaves, self.pointers**level) for level in range(1, self.levels(leaves) + 1))

    def fault(self):
        """The name of the maker's refusal, or nothing."""
        if self.blocksize not in (512, 1024, 2048, 4096):
            return "BlockSize"
        if not 16 <= self.inodes <= 2**20:
            return "Inodes"
        if self.blocks < 2 * self.half + 17:
            return "TooShort"
        return "TooLarge" if self.blocks > 2**28 else None


def up(number, by):
    """A quotient, rounded up."""
    return -(-number // by)


# Trees


class Row(NamedTuple):
    """A directory record in use; the number is that of its long name, where the name is one."""

    inode: int
    name: bytes
    number: int | None = None


@dataclass(frozen=True)
class Directory:
    slots: tuple  # a row or None for each record, `.` and `..` first
    kind = "dir"

    @property
    def size(self):
        return len(self.slots) * RECORD_SIZE

    @property
    def parent(self):
        return self.slots[1].inode

    def rows(self):
        """The rows but `.` and `..`, in record order."""
        return [row for row in self.slots[2:] if row is not None]

    def place(self, name):
        """The record of a name, None where there is none."""
        return next((place for place, row in enumerate(self.slots) if row is not None and row.name == name), None)

    def leaves(self, blocksize):
        return Runs([(0, self.size // blocksize)])


@dataclass(frozen=True)
class Link:
    target: bytes
    kind = "link"

    @property
    def size(self):
        return len(self.target)

    def leaves(self, blocksize):
        return Runs([(0, up(self.size, blocksize))])


@dataclass(frozen=True)
class File:
    """Bytes, all 0 but for the pieces, and which leaves are there: one that is there may well be all 0."""

    size: int = 0
    present: Runs = Runs()
    pieces: tuple = ()  # ascending and apart, each a first byte's place, an end and the bytes, or one byte for all
    kind = "file"

    def leaves(self, blocksize):
        return self.present

    def written(self, first, end, content, blocksize):
        """The file with the content from a byte on to an end above it."""
        kept = [*clipped(self.pieces, 0, first), *clipped(self.pieces, end, MOST_BYTES)]
        return File(
            max(self.size, end),
            self.present | Runs([(first // blocksize, up(end, blocksize))]),
            tuple(sorted([*kept, (first, end, content)], key=lambda piece: piece[0])),
        )

    def resized(self, size, blocksize):
        """Growth leaves holes; what is cut off is 0 where the file grows again."""
        return File(size, self.present & Runs([(0, up(size, blocksize))]), tuple(clipped(self.pieces, 0, size)))

    def read(self, at, count):
        end = min(at + count, self.size)
        data = bytearray(max(end - at, 0))
        for first, last, content in clipped(self.pieces, at, end):
            data[first - at : last - at] = content if isinstance(content, bytes) else bytes([content]) * (last - first)
        return bytes(data)


def clipped(pieces, first, end):
    """The parts of pieces from a byte on up to an end."""
    for begin, stop, content in pieces:
        left, right = max(begin, first), min(stop, end)
        if left < right:
            yield left, right, content[left - begin : right - begin] if isinstance(content, bytes) else content


@dataclass(frozen=True)
class Inode:
    body: Directory | File | Link
    mode: int
    ftime: int
    mtime: int
    atime: int
    ctime: int
    uid: int = 0
    gid: int = 0


@dataclass(frozen=True)
class Tree:
    inodes: dict  # the live ones by number
    long_names: dict  # those that are there by number
    long_size: int = 0

    def node(self, owner, blocksize):
        """The size and the leaves of a node, None where the tree doesn't have it."""
        if owner == LONGFILE:
            return self.long_size, Runs.of(self.long_names)
        if owner not in self.inodes:
            return None
        body = self.inodes[owner].body
        return body.size, body.leaves(blocksize)

    def links(self, number):
        """How many rows name an inode, `.` and `..` not counted."""
        directories = (inode.body for inode in self.inodes.values() if isinstance(inode.body, Directory))
        return sum(row.inode == number for directory in directories for row in directory.rows())


def new_inode(body, mode, moment):
    return Inode(body, mode, moment, moment, moment, moment)


def new_directory(number, parent, blocksize):
    unused = (None,) * (blocksize // RECORD_SIZE - 2)
    return Directory((Row(number, b"."), Row(parent, b".."), *unused))


def empty_tree(blocksize, moment):
    """What the maker makes."""
    return Tree({ROOT: new_inode(new_directory(ROOT, ROOT, blocksize), 0o755, moment)}, {})


# Paths


class Path(NamedTuple):
    absolute: bool
    parts: tuple  # the pieces between slashes

    def parents(self):
        return Path(self.absolute, self.parts[:-1])

    def name(self):
        """The last piece, where a row may be made or removed under it."""
        if not self.parts or self.parts[-1] in (b".", b".."):
            raise Refused("Reserved")
        return self.parts[-1]


def parse(text):
    if not text or len(text) > LONGEST_PATH or 0 in text:
        raise Refused("BadPath")
    parts = tuple(part for part in text.split(b"/") if part)
    if any(len(part) > LONGEST_NAME for part in parts):
        raise Refused("NameTooLong")
    return Path(text.startswith(b"/"), parts)


class Walk:
    """One walk from a session's directory; the links that it follows are counted over its whole way."""

    def __init__(self, tree, base):
        self.tree, self.base, self.followed = tree, base, 0

    def directory(self, number):
        body = self.tree.inodes[number].body
        if not isinstance(body, Directory):
            raise Refused("NotDir")
        return body

    def to(self, path, follows_last):
        """The inode to which a path leads."""
        return self.on(self.base, path, follows_last)

    def to_parents(self, path):
        """The directory in which the path's last piece stands, or could stand."""
        number = self.on(self.base, path.parents(), True)
        self.directory(number)
        return number

    def on(self, start, path, follows_last):
        number = ROOT if path.absolute else start
        if number is None:
            raise Refused("NoEntry")
        for at, part in enumerate(path.parts, 1):
            directory, here = self.directory(number), number
            if part == b".":
                continue
            if part == b"..":
                number = directory.parent
                continue
            place = directory.place(part)
            if place is None:
                raise Refused("NoEntry")
            number = directory.slots[place].inode
            if at < len(path.parts) or follows_last:
                number = self.past_link(here, number)
        return number

    def past_link(self, directory, number):
        """Where a link in a directory leads; what is no link stays."""
        body = self.tree.inodes[number].body
        if not isinstance(body, Link):
            return number
        if self.followed == MOST_LINKS:
            raise Refused("LinkLoop")
        self.followed += 1
        return self.on(directory, parse(body.target), True)


# Operations


class Operation:
    """An operation on a tree: the refusal or reply, the next tree and the leaves into which it writes.

    Each command that reads or changes the tree is a method of its name. A refusal is raised before anything is made.
    """

    def __init__(self, volume, tree, base, moment):
        self.volume, self.old, self.base, self.moment = volume, tree, base, moment
        self.inodes, self.long_names, self.long_size = dict(tree.inodes), dict(tree.long_names), tree.long_size
        self.written = {}  # owner to leaves
        self.removing = False  # may go into the reserve
        self.changes = False

    @property
    def blocksize(self):
        return self.volume.blocksize

    def tree(self):
        return Tree(self.inodes, self.long_names, self.long_size)

    # What operations are made of

    def find(self, path, follows_last):
        """The inode to which a path's text leads, and what stands there."""
        number = Walk(self.old, self.base).to(parse(path), follows_last)
        return number, self.inodes[number].body

    def find_file(self, path, end=0):
        """The file to which a path leads, where it may reach to a byte."""
        number, body = self.find(path, True)
        if isinstance(body, Directory):
            raise Refused("IsDir")
        if end > MOST_BYTES:
            raise Refused("FileTooBig")
        return number, body

    def find_row(self, path):
        """The directory, the record and the inode of a parsed path whose last piece is a name."""
        path.name()
        directory = Walk(self.old, self.base).to_parents(path)
        place = self.inodes[directory].body.place(path.name())
        if place is None:
            raise Refused("NoEntry")
        return directory, place, self.inodes[directory].body.slots[place].inode

    def find_gap(self, path):
        """The directory and the name for a row that isn't there yet."""
        path = parse(path)
        name = path.name()
        directory = Walk(self.old, self.base).to_parents(path)
        if self.inodes[directory].body.place(name) is not None:
            raise Refused("Exists")
        return directory, name

    def next_number(self):
        """The least inode number that isn't live."""
        number = next(number for number in range(ROOT, self.volume.inodes + 2) if number not in self.inodes)
        if number > self.volume.inodes:
            raise Refused("NoInodes")
        return number

    def set(self, number, **fields):
        self.inodes[number] = replace(self.inodes[number], **fields)

    def writes(self, owner, leaves):
        self.written[owner] = self.written.get(owner, Runs()) | leaves

    def put_row(self, directory, place, row):
        """Puts a row or None into a record."""
        slots = list(self.inodes[directory].body.slots)
        slots[place] = row
        self.set(directory, body=Directory(tuple(slots)))
        self.writes(directory, Runs.of([place * RECORD_SIZE // self.blocksize]))

    def rows_changed(self, directory):
        self.set(directory, mtime=self.moment, ctime=self.moment)

    def add_row(self, directory, name, inode):
        slots = self.inodes[directory].body.slots
        if None not in slots:
            slots += (None,) * (self.blocksize // RECORD_SIZE)
            self.set(directory, body=Directory(slots))
        number = self.add_long_name(name) if len(name) > LONGEST_SHORT else None
        self.put_row(directory, slots.index(None), Row(inode, name, number))
        self.rows_changed(directory)

    def add_long_name(self, name):
        """The least number that is absent has the name now."""
        number = next(number for number in range(len(self.long_names) + 1) if number not in self.long_names)
        self.long_names[number] = name
        self.long_size = max(self.long_size, (number + 1) * self.blocksize)
        self.writes(LONGFILE, Runs.of([number]))
        return number

    def clear_row(self, directory, place):
        """Clears a row with its long name; what becomes of its inode isn't decided here."""
        row = self.inodes[directory].body.slots[place]
        if row.number is not None:
            del self.long_names[row.number]
        self.put_row(directory, place, None)
        self.rows_changed(directory)

    def row_lost(self, number):
        """An inode has a row less: with the last one it goes."""
        if self.tree().links(number) == 0:
            del self.inodes[number]
        else:
            self.set(number, ctime=self.moment)

    def done(self):
        self.changes = True
        return Done()

    # The commands

    def ls(self, path):
        _, body = self.find(path, True)
        if not isinstance(body, Directory):
            raise Refused("NotDir")
        return Rows([(row.inode, row.name) for row in body.rows()])

    def stat(self, path):
        number, _ = self.find(path, False)
        return Stat(number, self.inodes[number], self.old.links(number))

    def cat(self, path, at, count):
        _, file = self.find_file(path)
        return Bytes(file.read(at, count))

    def readlink(self, path):
        _, body = self.find(path, False)
        if not isinstance(body, Link):
            raise Refused("WrongKind")
        return Target(body.target)

    def create(self, path):
        directory, name = self.find_gap(path)
        number = self.next_number()
        self.inodes[number] = new_inode(File(), 0o644, self.moment)
        self.add_row(directory, name, number)
        return self.done()

    def mkdir(self, path):
        directory, name = self.find_gap(path)
        number = self.next_number()
        self.inodes[number] = new_inode(new_directory(number, directory, self.blocksize), 0o755, self.moment)
        self.writes(number, Runs.of([0]))
        self.add_row(directory, name, number)
        return self.done()

    def symlink(self, target, path):
        parse(target)
        directory, name = self.find_gap(path)
        number = self.next_number()
        link = Link(target)
        self.inodes[number] = new_inode(link, 0o777, self.moment)
        self.writes(number, link.leaves(self.blocksize))
        self.add_row(directory, name, number)
        return self.done()

    def write(self, path, at, data):
        return self.put(path, at, at + len(data), data)

    def fill(self, path, at, count, byte):
        return self.put(path, at, at + count, byte)

    def put(self, path, first, end, content):
        number, file = self.find_file(path, end)
        if first < end:
            self.set(number, body=file.written(first, end, content, self.blocksize))
            self.writes(number, Runs([(first // self.blocksize, up(end, self.blocksize))]))
        self.set(number, mtime=self.moment, ctime=self.moment)
        return self.done()

    def truncate(self, path, size):
        number, file = self.find_file(path, size)
        self.removing = size < file.size
        self.set(number, body=file.resized(size, self.blocksize), mtime=self.moment, ctime=self.moment)
        if self.removing and size % self.blocksize:
            self.writes(number, file.present & Runs.of([size // self.blocksize]))
        return self.done()

    def rm(self, path):
        directory, place, number = self.find_row(parse(path))
        if isinstance(self.inodes[number].body, Directory):
            raise Refused("IsDir")
        return self.remove(directory, place, number)

    def rmdir(self, path):
        directory, place, number = self.find_row(parse(path))
        if not isinstance(self.inodes[number].body, Directory):
            raise Refused("NotDir")
        if self.inodes[number].body.rows():
            raise Refused("NotEmpty")
        return self.remove(directory, place, number)

    def remove(self, directory, place, number):
        self.removing = True
        self.clear_row(directory, place)
        self.row_lost(number)
        return self.done()

    def mv(self, old, new):
        source, goal = parse(old), parse(new)
        source.name(), goal.name()
        directory, place, number = self.find_row(source)
        parent = Walk(self.old, self.base).to_parents(goal)
        goal_place = self.inodes[parent].body.place(goal.name())
        replaced = None if goal_place is None else self.inodes[parent].body.slots[goal_place].inode
        if replaced == number:
            return Done()
        is_directory = isinstance(self.inodes[number].body, Directory)
        if is_directory and number in self.up_from(parent):
            raise Refused("IntoItself")
        if replaced is not None:
            self.test_replaced(is_directory, self.inodes[replaced].body)
        self.clear_row(directory, place)
        if replaced is None:
            self.add_row(parent, goal.name(), number)
        else:
            row = self.inodes[parent].body.slots[goal_place]
            self.put_row(parent, goal_place, row._replace(inode=number))
            self.rows_changed(parent)
            self.row_lost(replaced)
        if is_directory and parent != directory:
            self.put_row(number, 1, Row(parent, b".."))
        self.set(number, ctime=self.moment)
        return self.done()

    def up_from(self, number):
        """A directory and all those above it."""
        way = [number]
        while way[-1] != ROOT:
            way.append(self.inodes[way[-1]].body.parent)
        return way

    @staticmethod
    def test_replaced(is_directory, body):
        """Whether a rename may take the place of what stands there."""
        if not is_directory and isinstance(body, Directory):
            raise Refused("IsDir")
        if is_directory and not isinstance(body, Directory):
            raise Refused("NotDir")
        if is_directory and body.rows():
            raise Refused("NotEmpty")

    def ln(self, old, new):
        number, body = self.find(old, False)
        if isinstance(body, Directory):
            raise Refused("IsDir")
        directory, name = self.find_gap(new)
        self.add_row(directory, name, number)
        self.set(number, ctime=self.moment)
        return self.done()

    def chmod(self, path, mode):
        number, _ = self.find(path, True)
        self.set(number, mode=mode, ctime=self.moment)
        return self.done()

    def chown(self, path, uid, gid):
        number, _ = self.find(path, True)
        self.set(number, uid=uid, gid=gid, ctime=self.moment)
        return self.done()

    def utime(self, path, atime, mtime):
        number, _ = self.find(path, True)
        self.set(number, atime=atime, mtime=mtime, ctime=self.moment)
        return self.done()


# Blocks: positions of nodes, and those that a change takes


def positions(volume, node):
    """The positions of a node by level, leaves first; no levels where there is no node."""
    if node is None:
        return []
    size, leaves = node
    levels = [leaves]
    for _ in range(volume.levels(up(size, volume.blocksize))):
        levels.append(levels[-1].parents(volume.pointers))
    return levels


def touched(volume, old, new, written):
    """By level the positions of a changed node that are written or new, or have a child that is lost or touched."""
    found = []
    for level, here in enumerate(new):
        marked = here - (old[level] if level < len(old) else Runs())
        if level == 0:
            marked |= written
        else:
            lost = (old[level - 1] if level <= len(old) else Runs()) - new[level - 1]
            marked |= (lost.parents(volume.pointers) & here) | found[-1].parents(volume.pointers)
        found.append(marked)
    return found


class Copy(NamedTuple):
    """A tree with the ids of its blocks: for each owner a map from level and index."""

    tree: Tree
    ids: dict

    def all_ids(self):
        return {number for node in self.ids.values() for number in node.values()}


class Snapshot(NamedTuple):
    copy: Copy
    serial: int
    due: int = 0  # steps that are left


class Session(NamedTuple):
    directory: int | None = ROOT  # None where it was removed
    holds: bool = False


# The machine


class Machine:
    """The state between two turns. `turn` is the only call that changes it."""

    def __init__(self, volume, moment, serial=2, read_only=False, made=1000, faults=()):
        if volume.fault():
            raise ValueError(f"bad {volume.fault()}")
        self.volume, self.read_only = volume, read_only
        self.working = Copy(empty_tree(volume.blocksize, made), {ROOT: {(0, 0): 0}, LONGFILE: {}})
        self.next_id = 1
        self.durable = Snapshot(self.working, serial)
        self.frozen = None
        self.kept = self.working.all_ids()  # ids of the durable and the frozen copy
        self.last_begin = moment
        self.changed = False
        self.sessions = [Session()] * SESSIONS
        self.faults, self.tried = frozenset(faults), 0  # steps that fail, and how many were tried
        self.notices, self.has_failed = [], False  # of the turn
        self.decisions = 0  # in the turn; only counted

    # Turns

    def turn(self, line, moment):
        """One turn: a begin that time asks for, the act, and steps in the background. A line may be a refusal of it."""
        self.notices, self.has_failed, self.decisions = [], False, 0
        if self.is_time(moment):
            self.begin(moment)
        try:
            if isinstance(line, Refused):
                raise line
            reply = self.act(line, moment)
        except Refused as refusal:
            reply = refusal
        self.step_in_background()
        return Turn(reply, tuple(self.notices))

    def is_time(self, moment):
        is_free = not self.read_only and self.frozen is None and self.holds() == 0
        return is_free and self.changed and moment >= self.last_begin + INTERVAL

    def step_in_background(self):
        for _ in range(STEPS_A_TURN):
            if self.frozen is None or self.has_failed:
                return
            try:
                self.step()
            except Refused:
                self.notices.append("notice device")

    def act(self, line, moment):
        if line.command != "quit" and line.session >= SESSIONS:
            raise Refused("NoSession")
        if line.command in OTHERS:
            return getattr(self, "act_" + line.command)(line.session, moment, *line.arguments)
        return self.operate(line, moment)

    # Acts beside operations

    def act_cd(self, session, moment, path):
        walk = Walk(self.working.tree, self.sessions[session].directory)
        number = walk.to(parse(path), True)
        walk.directory(number)
        self.sessions[session] = self.sessions[session]._replace(directory=number)
        return Done()

    def act_df(self, session, moment):
        return self.space()

    def act_hold(self, session, moment):
        self.sessions[session] = self.sessions[session]._replace(holds=True)
        return Done()

    def act_unhold(self, session, moment):
        self.sessions[session] = self.sessions[session]._replace(holds=False)
        return Done()

    def act_sync(self, session, moment):
        if self.holds():
            raise Refused("Held", self.holds())
        self.finish()
        if self.changed:
            self.begin(moment)
            self.finish()
        return Done()

    def act_fsync(self, session, moment, path):
        Walk(self.working.tree, self.sessions[session].directory).to(parse(path), False)
        return self.act_sync(session, moment)

    def act_tick(self, session, moment):
        return Done()

    def act_quit(self, session, moment):
        """The end of a script, with or without the word: all holds are dropped first."""
        self.sessions = [entry._replace(holds=False) for entry in self.sessions]
        return self.act_sync(session, moment)

    def holds(self):
        return sum(entry.holds for entry in self.sessions)

    # Snapshots

    def begin(self, moment):
        copy = self.working
        frozen, durable = copy.all_ids(), self.durable.copy.all_ids()
        due = len(frozen - durable) + self.volume.bitmap_leaves + self.volume.inode_leaves + 3
        self.frozen = Snapshot(copy, self.durable.serial + 1, due)
        self.kept = frozen | durable
        self.changed, self.last_begin = False, moment

    def step(self):
        fails = self.tried in self.faults
        self.tried += 1
        if fails:
            self.has_failed = True
            raise Refused("Device")
        self.frozen = self.frozen._replace(due=self.frozen.due - 1)
        if self.frozen.due == 0:
            self.durable, self.frozen = self.frozen, None
            self.kept = self.durable.copy.all_ids()
            self.notices.append(f"snapshot {self.durable.serial}")

    def finish(self):
        while self.frozen is not None:
            self.step()

    # Operations

    def operate(self, line, moment):
        """Decides an operation up to three times, because a snapshot that becomes done may give it room."""
        operation = self.decide(line, moment)
        if not self.fits(operation) and self.frozen is not None:
            self.finish()
            operation = self.decide(line, moment)
        if not self.fits(operation) and self.holds() == 0 and self.changed:
            self.begin(moment)
            self.finish()
            operation = self.decide(line, moment)
        if not self.fits(operation):
            raise Refused("NoSpace", self.need(operation), self.free())
        self.take(operation)
        return operation.reply

    def decide(self, line, moment):
        """The operation on the working tree; nothing of it is kept yet."""
        self.decisions += 1
        if line.command in CHANGING and self.read_only:
            raise Refused("ReadOnly")
        if line.command in CHANGING and (self.frozen or self.durable).serial == LAST_SERIAL:
            raise Refused("SerialEnd")
        operation = Operation(self.volume, self.working.tree, self.sessions[line.session].directory, moment)
        operation.reply = getattr(operation, line.command)(*line.arguments)
        return operation

    def take(self, operation):
        """Keeps what an operation has made."""
        tree, ids = operation.tree(), dict(self.working.ids)
        for owner, old, new, marked in sorted(self.changed_nodes(operation), key=lambda node: node[0]):
            before, after = ids.pop(owner, {}), {}
            for level, here in enumerate(new):
                for index in here:
                    position = (level, index)
                    if index in marked[level] and (position not in before or before[position] in self.kept):
                        after[position] = self.next_id
                        self.next_id += 1
                    else:
                        after[position] = before[position]
            if new:
                ids[owner] = after
        self.working = Copy(tree, ids)
        self.changed = self.changed or operation.changes
        for session, entry in enumerate(self.sessions):
            # No operation both removes an inode and makes one, so a number that is there is the same inode.
            if entry.directory not in tree.inodes:
                self.sessions[session] = entry._replace(directory=None)

    def changed_nodes(self, operation):
        """Each node that an operation makes, changes or removes: owner, old and new positions, touched positions."""
        old, new = operation.old, operation.tree()
        for owner in {LONGFILE, *old.inodes, *new.inodes}:
            bodies = [tree.inodes[owner].body if owner in tree.inodes else None for tree in (old, new)]
            if owner != LONGFILE and bodies[0] is bodies[1]:
                continue
            before = positions(self.volume, old.node(owner, self.volume.blocksize))
            after = positions(self.volume, new.node(owner, self.volume.blocksize))
            yield owner, before, after, touched(self.volume, before, after, operation.written.get(owner, Runs()))

    def need(self, operation):
        """The fresh blocks that an operation takes: one for each touched position whose block isn't its own alone."""
        need = 0
        for owner, _, _, marked in self.changed_nodes(operation):
            ids = self.working.ids.get(owner, {})
            for level, here in enumerate(marked):
                own = Runs.of(index for (at, index), number in ids.items() if at == level and number not in self.kept)
                need += (here - own).count()
        return need

    def free(self):
        own = sum(number not in self.kept for node in self.working.ids.values() for number in node.values())
        return self.volume.user - len(self.kept) - own

    def fits(self, operation):
        need, free = self.need(operation), self.free()
        return need == 0 or need + (0 if operation.removing else RESERVE) <= free

    def space(self):
        inodes, live = self.volume.inodes, len(self.working.tree.inodes)
        return Space(self.volume.blocks, self.volume.user, self.free(), inodes, inodes - live, self.durable.serial)


# Runs of scripts


def clock(moments):
    """What the clock says: the moments, then the last one again and again; 0 where there is none."""
    moment = 0
    for moment in moments:
        yield moment
    while True:
        yield moment


def turns(volume, script, moments=(1000,), faults=None, **start):
    """The turns of a script one by one, each with its line and the machine after it.

    The last line is `quit`, said or not; after a script past the limit there is no last turn.
    """
    times = clock(moments)
    machine = Machine(volume, next(times), faults=faults or (), **start)
    for text, is_whole in script_lines(script[:SCRIPT_LIMIT]):
        if len(script) >= SCRIPT_LIMIT and not is_whole:
            break
        try:
            line = read_line(text)
        except Refused as refusal:
            line = refusal
        yield line, machine.turn(line, next(times)), machine
        if isinstance(line, Line) and line.command == "quit":
            return
    if len(script) < SCRIPT_LIMIT:
        line = Line(0, "quit")
        yield line, machine.turn(line, next(times))._replace(asked=False), machine


def run(volume, script, moments=(1000,), faults=None, **start):
    """The texts that the shell puts, one for each turn; together they are its output."""
    texts, line = [], None
    for line, turn, _ in turns(volume, script, moments, faults, **start):
        texts.append(turn_text(turn))
    if not (isinstance(line, Line) and line.command == "quit"):
        texts.append("script limit\n")
    return texts


def status(texts):
    """The shell's exit status after these texts."""
    last = texts[-1]
    if last == "script limit\n":
        return 6
    return 3 if last.startswith("error 16 ") else 0


# The workload of the shell


class Draw:
    """Draws one number after the other, each below a bound."""

    def __init__(self, start):
        self.x = start

    def below(self, bound):
        self.x = (self.x * 6364136223846793005 + 1442695040888963407) % 2**64
        return self.x // 2**33 % bound


def workload_lines(start):
    """The 2,000 commands of `shell -g`."""
    draw = Draw(start)
    for _ in range(2000):
        r, j = draw.below(8), draw.below(50)
        name = b"f%d" % j
        if r <= 1:
            yield Line(0, "create", (name,))
        elif r <= 3:
            yield Line(0, "fill", (name, 0, draw.below(20000) + 1, 65))
        elif r == 4:
            yield Line(0, "truncate", (name, draw.below(20000)))
        elif r == 5:
            yield Line(0, "rm", (name,))
        elif r == 6:
            yield Line(0, "mv", (name, b"f%d" % draw.below(50)))
        else:
            yield Line(0, "sync")


def workload(volume, start):
    """What `shell -g` puts: one summary, and the last turn's refusal where there is one. All its moments are 0."""
    machine = Machine(volume, 0)
    replies = [machine.turn(line, 0).reply for line in workload_lines(start)]
    refused = sum(isinstance(reply, Refused) for reply in replies)
    last = machine.turn(Line(0, "quit"), 0)
    space = machine.space()
    summary = (
        f"ran 2000 ok {len(replies) - refused} refused {refused} free {space.free} "
        f"inodes {space.inodes - space.free_inodes} serial {space.serial}\n"
    )
    return summary + turn_text(Turn(last.reply, (), asked=False))


def numbers(text):
    return [int(word) for word in text.split(",") if word]


def main():
    parser = argparse.ArgumentParser(description=__doc__.split("\n")[0], allow_abbrev=False)
    parser.add_argument("--blocks", type=int, default=96)
    parser.add_argument("--blocksize", type=int, default=512)
    parser.add_argument("--inodes", type=int, default=16)
    parser.add_argument("--moments", type=numbers, default=[1000])
    parser.add_argument("--made", type=int, default=1000)
    parser.add_argument("--serial", type=int, default=2)
    parser.add_argument("--read-only", action="store_true")
    parser.add_argument("--fail", type=numbers, default=[])
    parser.add_argument("--workload", type=int)
    words = parser.parse_args()
    volume = Volume(words.blocks, words.blocksize, words.inodes)
    if volume.fault():
        print(f"bad {volume.fault()}")
        return 1
    if words.workload is not None:
        sys.stdout.write(workload(volume, words.workload))
        return 0
    start = {"serial": words.serial, "read_only": words.read_only, "made": words.made}
    texts = run(volume, sys.stdin.buffer.read(), words.moments, words.fail, **start)
    sys.stdout.write("".join(texts))
    return status(texts)


if __name__ == "__main__":
    sys.exit(main())
