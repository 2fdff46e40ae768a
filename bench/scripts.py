#!/usr/bin/env python3
"""Random scripts for the shell, the same for the same seed, on small volumes that run out of space, inodes and serials.

    python3 bench/scripts.py SEED               the script
    python3 bench/scripts.py --words SEED       its volume, moments and start, as options of bench/machine.py
    python3 bench/scripts.py --image SEED       the maker's options and size for its volume
    python3 bench/scripts.py --count [COUNT]    runs COUNT scripts (2,000) through bench/machine.py and counts answers
    --lines L                                   so many lines a script (20), before all others

A script has a flavour, which says what its lines are mostly about. What a line names is chosen from what earlier lines
should have made; no answer is looked at, so that a script doesn't depend on any machine. With `--count` each state on
the way is held against laws that bench/machine.py doesn't compute by, and the exit status is 1 where a law fails, or
where an answer that scripts can reach didn't come.
"""
import os
import random
import sys
from collections import Counter
from typing import NamedTuple

sys.dont_write_bytecode = True  # no folders of compiled modules beside the sources
sys.path.insert(0, os.path.dirname(os.path.abspath(__file__)))
from machine import LAST_SERIAL, Directory, File, Link, Volume, turns
from texts import CHANGING, MOST_BYTES, REFUSALS, Refused

# What scripts are made of

SHORT_NAMES = [bytes([letter]) for letter in b"abcdef"]
ODD_NAMES = [
    b"n" * 27,
    b"n" * 28,
    b"m" * 28,
    b"n" * 510,
    b"m" * 509 + b"/",
    "é".encode(),
    "é".encode() * 14,
    b" ",
    b"a\nb",
    b"\\",
    b"\x7f\xff",
    b"...",
]
BAD_PATHS = [
    b"n" * 511,
    b"a/" + b"n" * 511,
    b"\0",
    b"a\0b",
    b"nosuch/x\0",
    b"n" * 512 + b"\0",
    b"a/" * 512,
    b"./" * 512,
]
ODD_PATHS = [
    b".",
    b"..",
    b"/",
    b"//",
    b"/.",
    b"./..",
    b"nosuch",
    b"nosuch/x",
    b"a/nosuch/b",
    b"a/.",
    b"a/..",
    b"/a/b/../c",
    b"./" * 511 + b"a",
]
BAD_LINES = [
    b"fill a 0 0 65",
    b"fill a 0 281474976710657 65",
    b"fill a 0 1 256",
    b"cat a 0 65537",
    b"cat a 00 1",
    b"chmod a 10000",
    b"chmod a 8",
    b"chmod a 00000",
    b"chown a 4294967296 0",
    b"utime a 0 4294967296",
    b"truncate a 18446744073709551616",
    b"write a 0 x\\4",
    b"write a 0 ",
    b"write a 0 \\zz",
    b"@ ls",
    b"@1",
    b"@01 ls",
    b"@18446744073709551616 df",
    b"@1  df",
    b" ls",
    b"ls ",
    b"LS",
    b"tick\r",
    b"mv a\tb c",
    b"@16 quit",
    b"quit now",
    b"\xff",
    b"mv " + b"x" * 8189,
    b"write " + b"x" * 8186,
    b"ls " + b"x" * 8189,
    b"ls " + b"x" * 8190,
    b"write a 0 " + b"\\41" * 2727,
    b"write a 0 " + b"\\41" * 2728,
]

# Weights of commands; `bad` is a line that may have no reading
MIXED = {
    "create": 12, "mkdir": 9, "symlink": 7, "ln": 6, "write": 10, "fill": 5, "truncate": 5, "rm": 6, "rmdir": 4,
    "mv": 10, "chmod": 4, "chown": 4, "utime": 4, "ls": 5, "stat": 5, "cat": 5, "readlink": 4, "cd": 6, "df": 3,
    "hold": 2, "unhold": 2, "sync": 4, "fsync": 5, "tick": 3, "bad": 2, "quit": 0,
}  # fmt: skip
FLAVOURS = {
    "mixed": MIXED,
    "inodes": {**MIXED, "create": 90, "mkdir": 25, "symlink": 25, "rm": 2, "rmdir": 1},
    "full": {**MIXED, "fill": 45, "write": 25, "truncate": 15, "df": 15, "hold": 7, "unhold": 4, "mkdir": 15},
    "links": {**MIXED, "symlink": 40, "ln": 15, "cat": 15, "ls": 10, "fsync": 6, "cd": 8, "readlink": 6},
    "moves": {**MIXED, "mkdir": 30, "mv": 60, "rmdir": 12, "ls": 8, "cd": 8},
    "names": {**MIXED, "create": 25, "mv": 30, "rm": 15, "ln": 15, "df": 10, "stat": 20},
    "files": {**MIXED, "write": 40, "fill": 20, "truncate": 40, "cat": 30, "df": 10, "create": 15},
    "clock": {**MIXED, "tick": 30, "hold": 6, "unhold": 6, "sync": 6, "df": 12},
    "words": {**MIXED, "bad": 80},
    "serial": {**MIXED, "sync": 8, "hold": 10},
    "reader": MIXED,
    "reserve": {"truncate": 40, "rm": 10, "rmdir": 5, "df": 20, "create": 5, "mv": 5, "ln": 5, "unhold": 1},
}
# What has to be there for a command, and which command makes it
NEEDED = {
    **dict.fromkeys(["write", "fill", "truncate", "cat", "ln"], ("file",)),
    **dict.fromkeys(["rm", "mv", "chmod", "chown", "utime"], ("file", "dir", "link")),
    **dict.fromkeys(["rmdir", "cd"], ("dir",)),
    "readlink": ("link",),
}
MAKERS = {"file": "create", "dir": "mkdir", "link": "symlink"}

FLAVOUR_WEIGHTS = {
    "mixed": 24, "inodes": 7, "full": 14, "links": 10, "moves": 12, "names": 7, "files": 9, "clock": 7, "words": 5,
    "serial": 2, "reader": 1, "reserve": 2,
}  # fmt: skip

# Bytes of the image, block size, inodes: the least volume, and some in which a snapshot is more or less of the whole
VOLUMES = [
    (32768, 512, 16),
    (36864, 512, 32),
    (49152, 512, 16),
    (65536, 512, 16),
    (65536, 512, 80),
    (65536, 1024, 16),
    (131072, 1024, 33),
    (131072, 2048, 16),
    (172032, 4096, 32),
    (262144, 4096, 40),
]


class Case(NamedTuple):
    """A script with the volume on which it runs, and what the clock says."""

    seed: int
    flavour: str
    size: int
    blocksize: int
    inodes: int
    serial: int
    read_only: bool
    moments: tuple
    script: bytes

    @property
    def volume(self):
        return Volume.of_size(self.size, self.blocksize, self.inodes)

    def start(self):
        return {"serial": self.serial, "read_only": self.read_only}

    def words(self):
        volume = self.volume
        words = f"--blocks {volume.blocks} --blocksize {volume.blocksize} --inodes {volume.inodes}"
        words += f" --serial {self.serial}" + " --read-only" * self.read_only
        return words + " --moments " + ",".join(map(str, self.moments))


def case_of(seed, count=20):
    """The case of a seed, with so many lines."""
    return Writer(seed, count).case()


class Writer:
    """Writes one script, keeping in mind what its lines should have made."""

    def __init__(self, seed, count):
        self.seed, self.count = seed, count
        self.random = random.Random(seed)
        self.flavour = self.weighted(FLAVOUR_WEIGHTS)
        self.size, self.blocksize, self.inodes = self.one(VOLUMES)
        if self.flavour in ("inodes", "reserve"):
            self.size, self.blocksize, self.inodes = 65536, 512, 16
        self.volume = Volume.of_size(self.size, self.blocksize, self.inodes)
        self.kinds = {b"": "dir"}  # path from the root to what should stand there
        self.directories = {0: b"", 1: b""}  # session to its directory
        self.session = 0

    # Choices

    def below(self, number):
        return self.random.randrange(number)

    def chance(self, percent):
        return self.below(100) < percent

    def one(self, items):
        return items[self.below(len(items))]

    def weighted(self, weights):
        left = self.below(sum(weights.values()))
        for item, weight in weights.items():
            left -= weight
            if left < 0:
                return item

    # The script

    def case(self):
        lines = getattr(self, self.flavour + "_begin", list)()[: self.count]
        while len(lines) < self.count:
            lines.append(self.line())
        if self.chance(20):
            lines[-1] = b"@7 quit" if self.chance(20) else b"quit"
        script = b"\n".join(lines) + b"\n" * (not self.chance(10))
        serial = LAST_SERIAL - self.below(4) if self.flavour == "serial" else 2
        read_only = self.flavour == "reader"
        moments = tuple(self.moments())
        return Case(self.seed, self.flavour, self.size, self.blocksize, self.inodes, serial, read_only, moments, script)

    def moments(self):
        moment = self.one([0, 1000, 2**32 - 100])
        steps = [0] * 12 + [1, 1, 2, 10, -1]
        if self.flavour == "clock":
            steps = [0, 1, 9, 10, 11, 25, -30]
        elif self.flavour == "full":
            steps = [0, 0, 1, 5, 10]
        for _ in range(self.count + 2):
            yield moment
            moment = min(max(moment + self.one(steps), 0), 2**32 - 1)

    def line(self):
        prefix = self.next_session()
        command = self.weighted(FLAVOURS[self.flavour])
        if command == "bad":
            return self.bad(prefix)
        kinds = NEEDED.get(command, ())
        if kinds and self.known(*kinds) is None and not self.chance(8):
            command = MAKERS[kinds[0]]
        words = getattr(self, "line_" + command, lambda: [])()
        return prefix + b" ".join([command.encode(), *words])

    def next_session(self):
        """Chooses the session of a line, and gives its prefix."""
        if self.chance(2):
            self.session = 0
            return self.one([b"@16 ", b"@99 ", b"@18446744073709551615 ", b"@15 ", b"@0 "])
        self.session = 1 if self.chance(35) else 0
        return b"@1 " if self.session else b""

    def bad(self, prefix):
        if self.chance(40):
            return self.one(BAD_LINES)
        command = self.one([name for name in FLAVOURS["mixed"] if name not in ("bad", "quit")])
        line = bytearray(prefix + b" ".join([command.encode(), *getattr(self, "line_" + command, lambda: [])()]))
        at = self.below(len(line))
        how = self.below(4)
        if how == 0:
            del line[at]
        elif how == 1:
            line.insert(at, self.one(b" a0@\\/\x00\xc3\x7f"))
        elif how == 2:
            line[at] = self.one(b" 9fx\\\t")
        else:
            del line[at:]
        return bytes(line) or b"-"

    def reserve_begin(self):
        """Files whose cuts take five blocks each, all held by a snapshot, and then no free block but the reserve."""
        place = self.one([2**41, 2**45, 2**47]) + 3 * self.blocksize
        long = b"d/" + b"n" * 28
        self.kinds.update({b"g": "file", b"d": "dir", long: "file"})
        lines = [b"mkdir d", b"create " + long, b"create g"]
        cuts = []
        for name in (b"a", b"b", b"c", b"e"):
            lines += [b"create " + name, b"write %s %d xy" % (name, place - 1)]
            cuts.append(b"truncate %s %d" % (name, place))
            self.kinds[name] = "file"
        lines += [b"sync", b"hold", b"fill g 0 %d 1" % ((38 - self.below(3)) * self.blocksize)]
        others = [cuts.pop(), b"rm " + long, b"rm a", b"mv %s f" % long, b"df"]
        self.random.shuffle(others)
        if self.chance(50):
            lines.append(b"truncate g %d" % place)  # it grows, which takes blocks for more levels
        return [*lines, *cuts, *others[:3]]

    def inodes_begin(self):
        """Names for nearly all inodes, or for nearly all records of a directory's first leaf."""
        if self.chance(40):
            names = [b"x%d" % number for number in range(12 + self.below(4))]
            self.kinds.update(dict.fromkeys(names, "file"))
            return [b"create x0", *(b"ln x0 " + name for name in names[1:])]
        lines = []
        for _ in range(12 + self.below(4)):
            self.session = self.below(2)
            command = self.one(["create", "create", "mkdir", "symlink"])
            lines.append(b"@1 " * self.session + b" ".join([command.encode(), *getattr(self, "line_" + command)()]))
        return lines

    def names_begin(self):
        """Files with two names, long ones among them."""
        first, second, third = b"a", self.one(ODD_NAMES[:4]), self.one(ODD_NAMES[5:])
        self.kinds.update(dict.fromkeys([first, second, third, b"b"], "file"))
        first, second, third = (self.spell(name) for name in (first, second, third))
        lines = [b"create " + first, b"ln %s %s" % (first, second), b"create b", b"ln b " + third]
        return lines if self.chance(60) else lines[:2]

    # Words

    def spell(self, data):
        """A byte word; bytes that may stand for themselves are escaped now and then."""
        if len(data) > 600:
            return data
        words = bytearray()
        for byte in data:
            plain = 0x21 <= byte <= 0xFF and byte not in (0x5C, 0x7F)
            if plain and not self.chance(1):
                words.append(byte)
            else:
                words += (b"\\%02X" if self.chance(5) else b"\\%02x") % byte
        return bytes(words)

    def number(self, *numbers):
        return b"%d" % self.one(numbers)

    def place(self):
        """A byte's place near an edge of leaves and levels."""
        size, pointers = self.blocksize, self.blocksize // 4
        edge = self.one([0] * 6 + [size] * 3 + [2 * size, 16 * size, 16 * size, 17 * size, 16 * pointers * size, 2**41])
        if self.chance(4):
            edge = self.one([MOST_BYTES, 16 * pointers**2 * size, 16 * pointers**4 * size, 2**63])
        return max(edge + self.one([0, 0, 0, 1, -1, 7, size // 2]), 0)

    def known(self, *kinds):
        """A path below the root that should lead to one of the kinds."""
        paths = [path for path, kind in self.kinds.items() if kind in kinds and path]
        return self.one(paths) if paths else None

    def new_name(self):
        if self.flavour == "names" or self.chance(6):
            return self.one(ODD_NAMES)
        if self.flavour == "inodes":
            return b"x%d" % self.below(100)
        return self.one(SHORT_NAMES)

    def new_path(self):
        """A path in a known directory, mostly one that isn't there yet."""
        directory = self.known("dir") if self.chance(60) else b""
        for _ in range(1 if self.chance(12) else 4):
            path = joined(directory or b"", self.new_name())
            if path not in self.kinds:
                break
        return path

    def path(self, *kinds):
        """A path to what should be there: mostly of such kinds."""
        path = self.known(*kinds)
        if path is not None and self.chance(88):
            return path
        return self.one([self.known("file", "dir", "link") or b"", self.new_path(), self.new_path(), b""])

    def say(self, path):
        """How a line names a path from the root: from the session's directory or the root, with detours."""
        if self.chance(6):
            return self.spell(self.one(BAD_PATHS if self.chance(45) else ODD_PATHS))
        base = self.directories[self.session]
        if path == base and self.chance(50):
            said = b"."
        elif path.startswith(base + b"/") or not base:
            said = path[len(base) + 1 :] if base else path
        else:
            said = b"../" * (base.count(b"/") + 1) + path if self.chance(30) else b"/" + path
        if self.chance(5):
            said = b"/" + path
        said = said or b"/"
        if self.chance(35 if self.flavour == "links" else 12):
            said = self.detour(said)
        return self.spell(said)

    def detour(self, said):
        link, directory, file = self.known("link"), self.known("dir"), self.known("file")
        if link and self.chance(40):
            return b"/" + link + b"/" + said.lstrip(b"/")
        if link and self.chance(40):
            # The greatest number of links in one walk lies at 16.
            times = self.one([2, 14, 15, 16, 17])
            return b"/" + (link + b"/") * times + said.lstrip(b"/")
        if directory and self.chance(40):
            return b"/" + directory + b"/.." * (directory.count(b"/") + 1) + b"/" + said.lstrip(b"/")
        if file and self.chance(40):
            return b"/" + file + b"/" + said.lstrip(b"/")
        return self.one([said + b"/", b"./" + said.lstrip(b"/"), said.replace(b"/", b"//"), said + b"//."])

    def record(self, path, kind):
        """Keeps in mind what a line should have made."""
        directory = path.rpartition(b"/")[0]
        if path not in self.kinds and self.kinds.get(directory) == "dir" and b"/" not in path[len(directory) + 1 :]:
            self.kinds[path] = kind

    def forget(self, path):
        if path:
            gone = [key for key in self.kinds if key == path or key.startswith(path + b"/")]
            for key in gone:
                del self.kinds[key]

    # Lines by their commands: the words after the first

    def line_create(self, kind="file"):
        path = self.new_path() if self.chance(92) else self.path("file", "dir", "link")
        said = self.say(path)
        self.record(path, kind)
        return [said]

    def line_mkdir(self):
        return self.line_create("dir")

    def line_symlink(self):
        target = self.path("file", "dir", "link")
        said = self.say(target)
        if self.chance(25):
            said = self.one([b".", b"..", b"/", b"./.", b"nosuch", b"x/y"])
        new = self.new_path()
        if self.chance(12):
            said = self.spell(new.rpartition(b"/")[2])  # a link to itself
        if self.chance(3):
            said = self.spell(b"/".join([b"t" * 500] * 2)[: self.one([512, 513, 1000, 1001])])
        words = [said, self.say(new)]
        self.record(new, "link")
        return words

    def line_ln(self):
        old, new = self.path("file", "link"), self.new_path()
        if self.chance(8):
            old = self.path("dir")
        words = [self.say(old), self.say(new if self.chance(90) else self.path("file", "dir"))]
        self.record(new, "file")
        return words

    def line_write(self):
        length = self.one([1, 1, 2, 5, 20, 64, self.blocksize, self.blocksize + 1, 1500])
        data = self.spell(bytes([self.one(b"xyz\x00\xe9\\ ~")]) * length if length < 300 else b"w" * length)
        return [self.say(self.path("file", "link")), b"%d" % self.place(), data]

    def line_fill(self):
        size, user = self.blocksize, self.volume.user
        leaves = self.one([1, 1, 2, 16, 17, user // 2, user // 3, max(user - 17, 1), max(user - 20, 1)])
        if self.flavour == "full" and self.chance(60):
            leaves = max(user - 16 - self.below(9), 1)
        count = max(leaves * size + self.one([0, 0, 0, -1, 1]), 1)
        if self.chance(4):
            count = self.one([MOST_BYTES, MOST_BYTES - 1, 2**40, 2**32])
        place = 0 if self.chance(60) else self.place()
        return [self.say(self.path("file", "link")), b"%d" % place, b"%d" % count, self.number(0, 65, 255)]

    def line_truncate(self):
        place = self.place()
        if self.chance(3):
            place = self.one([MOST_BYTES, MOST_BYTES + 1, 2**64 - 1])
        return [self.say(self.path("file", "link")), b"%d" % place]

    def line_cat(self):
        count = self.number(0, 1, 9, self.blocksize, 2000, 65536)
        return [self.say(self.path("file", "link")), b"%d" % self.place(), count]

    def line_rm(self):
        path = self.path("file", "link") if self.chance(90) else self.path("dir")
        words = [self.say(path)]
        if self.kinds.get(path) != "dir":
            self.forget(path)
        return words

    def line_rmdir(self):
        path = self.path("dir") if self.chance(90) else self.path("file", "link")
        words = [self.say(path)]
        if not any(key.startswith(path + b"/") for key in self.kinds):
            self.forget(path)
        return words

    def line_mv(self):
        source = self.path("file", "dir", "link")
        goal = self.new_path() if self.chance(55) else self.path("file", "dir", "link")
        if self.chance(12):
            source, goal = self.path("dir"), self.path("dir")
        if self.chance(6):
            goal = joined(source, self.new_name())
        words = [self.say(source), self.say(goal)]
        if source and source in self.kinds and not goal.startswith(source + b"/") and goal != source:
            moved = {key: kind for key, kind in self.kinds.items() if key == source or key.startswith(source + b"/")}
            self.forget(source)
            if goal:
                self.kinds.update({goal + key[len(source) :]: kind for key, kind in moved.items()})
        return words

    def line_chmod(self):
        return [self.say(self.path("file", "dir", "link")), self.one([b"0", b"644", b"7777", b"0755", b"07", b"4000"])]

    def line_chown(self):
        number = self.number(0, 1, 1000, 2**32 - 1)
        return [self.say(self.path("file", "dir", "link")), number, self.number(0, 7, 2**32 - 1)]

    line_utime = line_chown

    def line_stat(self):
        return [self.say(self.path("file", "dir", "link"))]

    def line_ls(self):
        if self.chance(20):
            return []
        return [self.say(self.path("dir", "link") if self.chance(90) else self.path("file"))]

    def line_readlink(self):
        return [self.say(self.path("link") if self.chance(80) else self.path("file", "dir"))]

    def line_cd(self):
        path = self.path("dir", "link") if self.chance(90) else self.path("file")
        words = [self.say(path)]
        if self.kinds.get(path) == "dir":
            self.directories[self.session] = path
        return words

    line_fsync = line_stat


def joined(directory, name):
    return directory + b"/" + name if directory else name


# What holds of each state
#
# Blocks are listed here leaf by leaf and level by level, and each has a content. So it shows that no block of a
# snapshot is written again, by whatever way a machine finds out which blocks it has to take.


def leaf_content(tree, owner, index, blocksize):
    if owner == 0:
        return tree.long_names[index]
    body = tree.inodes[owner].body
    if isinstance(body, Directory):
        records = blocksize // 32
        return body.slots[index * records : (index + 1) * records]
    at = index * blocksize
    data = body.target[at : at + blocksize] if isinstance(body, Link) else body.read(at, blocksize)
    return data.ljust(blocksize, b"\0")


def blocks_of(copy, volume):
    """Each block of a copy by its id: its content, that of a pointer block being its children's ids."""
    found, pointers = {}, volume.blocksize // 4
    for owner in {0, *copy.tree.inodes}:
        size, leaves = copy.tree.node(owner, volume.blocksize)
        ids, count, levels = copy.ids.get(owner, {}), -(-size // volume.blocksize), 0
        while 16 * pointers**levels < count:
            levels += 1
        wanted = {(level, leaf // pointers**level) for leaf in leaves for level in range(levels + 1)}
        assert set(ids) == wanted, "each position has an id, and nothing else has one"
        assert all(leaf < count for leaf in leaves), "no leaf lies past the size"
        for (level, index), number in ids.items():
            assert number not in found, "no id stands at two positions"
            if level == 0:
                found[number] = (owner, index, leaf_content(copy.tree, owner, index, volume.blocksize))
            else:
                children = range(index * pointers, (index + 1) * pointers)
                found[number] = tuple(ids.get((level - 1, child)) for child in children)
    return found


def test_tree(tree, volume):
    """The tree is one that a volume may hold."""
    named, longs, parents = Counter(), Counter(), {1: 1}
    for number, inode in tree.inodes.items():
        if isinstance(inode.body, Directory):
            slots = inode.body.slots
            assert slots[0][:2] == (number, b".") and slots[1].name == b"..", "the first two rows"
            assert len(slots) % (volume.blocksize // 32) == 0, "a directory has whole leaves"
            names = [row.name for row in slots if row is not None]
            assert len(names) == len(set(names)), "no name stands twice"
            for row in slots[2:]:
                if row is not None:
                    named[row.inode] += 1
                    assert row.name not in (b".", b"..") and 1 <= len(row.name) <= 510, "names"
                    assert b"/" not in row.name and b"\0" not in row.name, "bytes of names"
                    assert (row.number is None) == (len(row.name) <= 27), "a name is long from 28 bytes on"
                    if row.number is not None:
                        longs[row.number] += 1
                        assert tree.long_names[row.number] == row.name, "a long record leads to its name"
                    if isinstance(tree.inodes[row.inode].body, Directory):
                        parents[row.inode] = number
        elif isinstance(inode.body, File):
            end = 0
            for first, stop, _ in inode.body.pieces:
                assert end <= first < stop <= inode.body.size, "pieces are apart, and lie below the size"
                assert first // volume.blocksize in inode.body.present, "a byte lies in a leaf"
                end = stop
    assert set(named) | {1} == set(tree.inodes) and 1 not in named, "each inode but the root has a row"
    assert set(longs) == set(tree.long_names) and set(longs.values()) <= {1}, "each long name has one record"
    assert tree.long_size % volume.blocksize == 0, "the Longfile has whole leaves"
    assert max(tree.inodes) <= volume.inodes, "inode numbers"
    for number, parent in parents.items():
        assert tree.inodes[number].body.parent == parent and (number == 1 or named[number] == 1), "parents"
    for number in parents:
        while number != 1:
            number = parents[number]


def test_change(before, after, blocks, volume):
    """No block was taken for nothing, but where bytes or a long name were written that stood there before."""
    old = blocks_of(before, volume)
    for owner, ids in after.ids.items():
        for position, number in ids.items():
            was = before.ids.get(owner, {}).get(position)
            if was is None or number == was:
                continue
            assert number not in old, "a block that is taken is a new one"
            is_directory = owner and isinstance(after.tree.inodes[owner].body, Directory)
            if position[0] > 0 or is_directory:
                assert blocks[number] != old[was], "a block is taken for what has changed"


def test_state(machine, before):
    """The state of a machine, and how its working copy came from the one before."""
    volume = machine.volume
    test_tree(machine.working.tree, volume)
    working, durable = blocks_of(machine.working, volume), blocks_of(machine.durable.copy, volume)
    frozen = blocks_of(machine.frozen.copy, volume) if machine.frozen else {}
    for one, other in ((working, durable), (working, frozen), (frozen, durable)):
        for number in one.keys() & other.keys():
            assert one[number] == other[number], "an id stands for one content"
    held = working.keys() | durable.keys() | frozen.keys()
    assert machine.free() == volume.user - len(held) >= 0, "free blocks are those that no copy holds"
    assert all(number < machine.next_id for number in held), "ids are new"
    if machine.frozen:
        due = len(frozen.keys() - durable.keys()) + volume.bitmap_leaves + volume.inode_leaves + 3
        assert 0 < machine.frozen.due <= due, "steps are left"
        assert machine.frozen.serial == machine.durable.serial + 1, "serials follow"
    else:
        assert machine.changed or machine.working.tree == machine.durable.copy.tree, "what isn't changed is durable"
    if before is not None:
        test_change(before, machine.working, working, volume)
    for session in machine.sessions:
        if session.directory is not None:
            assert isinstance(machine.working.tree.inodes[session.directory].body, Directory), "sessions"


# Counting

WALK = "NoEntry NotDir NameTooLong BadPath LinkLoop NoSession "
CHANGE = WALK + "ReadOnly SerialEnd "
NEW = CHANGE + "Reserved Exists NoInodes NoSpace"
REACHED = {  # what each command has to meet in so many scripts
    "ls": WALK,
    "stat": WALK,
    "cat": WALK + "IsDir",
    "readlink": WALK + "WrongKind",
    "create": NEW,
    "mkdir": NEW,
    "symlink": NEW,
    "write": CHANGE + "IsDir FileTooBig NoSpace",
    "fill": CHANGE + "IsDir FileTooBig NoSpace",
    "truncate": CHANGE + "IsDir FileTooBig NoSpace",
    "rm": CHANGE + "Reserved IsDir",
    "rmdir": CHANGE + "Reserved NotEmpty",
    "mv": CHANGE + "Reserved IsDir NotEmpty IntoItself NoSpace",
    "ln": CHANGE + "Reserved Exists IsDir NoSpace",
    "chmod": CHANGE,
    "chown": CHANGE,
    "utime": CHANGE,
    "cd": WALK,
    "fsync": WALK + "Held",
    "sync": "Held NoSession",
    "df": "NoSession",
    "hold": "NoSession",
    "unhold": "NoSession",
    "tick": "NoSession",
    "quit": "",
    "(bad)": "BadLine",
}


class Tally:
    """Answers, counted over scripts."""

    def __init__(self):
        self.pairs, self.replies, self.scripts = Counter(), Counter(), Counter()
        self.notices, self.decisions, self.flavours, self.full = Counter(), Counter(), Counter(), Counter()
        self.lines = 0

    def add(self, one):
        self.flavours[one.flavour] += 1
        names, working, begun = set(), None, None
        for line, turn, machine in turns(one.volume, one.script, one.moments, **one.start()):
            self.lines += 1
            name = turn.reply.name if isinstance(turn.reply, Refused) else type(turn.reply).__name__
            command = "(bad)" if isinstance(line, Refused) else line.command
            names.add(name)
            self.pairs[command, name] += 1
            self.replies[name] += 1
            self.notices.update(notice.split()[0] for notice in turn.notices)
            if name == "NoSpace":
                need, free = turn.reply.numbers
                self.full[command in ("rm", "rmdir", "truncate"), need <= free] += 1
            if command in CHANGING:
                self.decisions[machine.decisions, name == "Done", name == "NoSpace"] += 1
            if machine.working is not working or (machine.durable, machine.frozen) != begun:
                test_state(machine, working)
            working, begun = machine.working, (machine.durable, machine.frozen)
        self.scripts.update(names)

    def missing(self):
        """Commands with an answer that scripts can reach and that didn't come."""
        wanted = [(command, name) for command, names in REACHED.items() for name in ["Done", *names.split()]]
        replies = {"ls": "Rows", "stat": "Stat", "cat": "Bytes", "readlink": "Target", "df": "Space"}
        for command, name in wanted:
            name = replies.get(command, "Done") if name == "Done" else name
            if not self.pairs[command, name] and (command, name) != ("(bad)", "Done"):
                yield command, name

    def print(self):
        print(f"{sum(self.flavours.values())} scripts, {self.lines} turns with the last ones")
        print("flavours: " + ", ".join(f"{name} {count}" for name, count in sorted(self.flavours.items())))
        print(f"\n{'answer':14}{'turns':>8}{'scripts':>9}  by command")
        for name in ["Done", "Rows", "Stat", "Bytes", "Target", "Space", *REFUSALS]:
            found = [(count, command) for (command, answer), count in self.pairs.items() if answer == name]
            found.sort(reverse=True)
            by = " ".join(f"{command} {count}" for count, command in found)
            print(f"{name:14}{self.replies[name]:8}{self.scripts[name]:9}  {by or 'never'}")
        print("\nnotices: " + ", ".join(f"{name} {count}" for name, count in self.notices.items()))
        for (times, is_done, is_full), count in sorted(self.decisions.items()):
            end = "done" if is_done else "NoSpace" if is_full else "refused otherwise"
            print(f"operations that change, decided {times} times, {end}: {count}")
        for (cuts, is_reserve), count in sorted(self.full.items()):
            commands = "rm, rmdir and truncate" if cuts else "other operations"
            print(f"NoSpace of {commands}, need {'at most' if is_reserve else 'above'} free: {count}")


def count(number, lines):
    tally = Tally()
    for seed in range(number):
        one = case_of(seed, lines)
        try:
            tally.add(one)
        except Exception:
            print(f"seed {seed} ({one.flavour}):")
            raise
    tally.print()
    missing = list(tally.missing())
    named = ", ".join(f"{command} {name}" for command, name in missing)
    print(f"\nnever met: {named or 'nothing that scripts can reach'}")
    return 1 if missing else 0


def main(words):
    lines = 20
    if words[:1] == ["--lines"] and len(words) > 2:
        lines, words = int(words[1]), words[2:]
    match words:
        case ["--count"]:
            return count(2000, lines)
        case ["--count", number]:
            return count(int(number), lines)
        case ["--words", seed]:
            print(case_of(int(seed), lines).words())
        case ["--image", seed]:
            one = case_of(int(seed), lines)
            print(f"-b {one.blocksize} -i {one.inodes} {one.size}")
        case [seed] if seed.isdigit():
            sys.stdout.buffer.write(case_of(int(seed), lines).script)
        case _:
            sys.exit(__doc__)
    return 0


if __name__ == "__main__":
    sys.exit(main(sys.argv[1:]))
