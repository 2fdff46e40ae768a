#!/usr/bin/env python3
"""Says of images what the checker says of them, in the same words: a second reading of the format, for tests.

It is written from the format's tables alone, in the order in which they name the tests, and shares nothing with the
program or with bench/volume.py but the checksum of examples/small.py. It is plain: each part makes lists and looks at
them.

    python3 bench/verify.py IMAGE..         the checker's line for each image
    python3 bench/verify.py -s IMAGE..      the line about the superblocks alone

The exit status is that of the last image: 0, or 2 where it gives no volume, disagrees or is damaged.
"""
import mmap
import os
import struct
import sys
from collections import Counter, deque
from typing import NamedTuple

sys.dont_write_bytecode = True  # no folders of compiled modules beside the sources
sys.path.insert(0, os.path.join(os.path.dirname(os.path.abspath(__file__)), "..", "examples"))
from small import ABSENT, checksum

MAGIC = 0x68191122
FIRST_AREA = 0x2000
BLOCKS_BEGIN = 0x3000
SUPER_SIZE = 512
INODE_SIZE = 128
RECORD_SIZE = 32
MOST_BYTES = 2**48  # of one node
DIRECTORY, FILE, LINK, SPECIAL = "directory", "file", "link", "special"
KINDS = {0x4: DIRECTORY, 0x8: FILE, 0xA: LINK, 0x1: SPECIAL, 0x2: SPECIAL, 0x6: SPECIAL, 0xC: SPECIAL}


class Damaged(Exception):
    """The first test that fails: its code, the node under the walk, and a block or none."""

    def __init__(self, code, inode, block=ABSENT):
        super().__init__(f"damaged {code} inode {inode} block {block}")


class Foreign(Exception):
    """The first reason for which a sound reading isn't this project's writing, with its number."""

    def __init__(self, reason, at):
        super().__init__(f"foreign {reason} at {at}")


class Root(NamedTuple):
    """What a node is on disk."""

    size: int
    pointers: tuple
    levels: int


def read_number(data, order, at, width):
    return int.from_bytes(data[at : at + width], order)


def read_words(data, order):
    return struct.unpack(f"{'<' if order == 'little' else '>'}{len(data) // 4}I", data)


def read_root(data, order, at, levels_at):
    """A node whose size stands at `at`; the pointers' place and that of the levels differ between the two forms."""
    pointers_at = levels_at - 64
    return Root(
        read_number(data, order, at, 8),
        read_words(data[pointers_at:levels_at], order),
        data[levels_at],
    )


# The areas


class Super:
    """A valid superblock."""

    def __init__(self, data, order):
        self.order = order
        self.serial = read_number(data, order, 8, 8)
        self.version1 = read_number(data, order, 28, 2)
        self.blocksize = read_number(data, order, 48, 4)
        self.num_inodes = read_number(data, order, 52, 4)
        self.free_inodes = read_number(data, order, 56, 4)
        self.num_blocks = read_number(data, order, 60, 4)
        self.free_blocks = read_number(data, order, 64, 4)
        self.inodes = read_root(data, order, 72, 144)
        self.bitmap = read_root(data, order, 152, 224)
        self.longfile = read_root(data, order, 232, 304)
        self.fourth = read_root(data, order, 312, 384)

    def second_place(self):
        return BLOCKS_BEGIN + self.num_blocks * self.blocksize

    def volume(self):
        """What two areas of one volume have in common."""
        return self.order, self.blocksize, self.num_blocks, self.num_inodes


def super_at(image, place):
    """The valid superblock at this place, or none."""
    if place is None or place + SUPER_SIZE > len(image):
        return None
    data = bytes(image[place : place + SUPER_SIZE])
    for order in ("little", "big"):
        if read_number(data, order, 0, 4) == MAGIC:
            break
    else:
        return None
    if read_number(data, order, 4, 4) != checksum(data[8:]):
        return None
    found = Super(data, order)
    if found.blocksize not in (512, 1024, 2048, 4096) or found.num_blocks == 0:
        return None
    if 0x3200 + found.num_blocks * found.blocksize > len(image):
        return None
    return found


def both_areas(image):
    """The two superblocks, or none in the place of one that isn't valid."""
    first = super_at(image, FIRST_AREA)
    whole = len(image) // 4096 * 4096
    if first:
        place = first.second_place()
    else:
        place = whole - 0x1000 if whole else None
    second = super_at(image, place)
    if second and second.second_place() != place:
        second = None
    return first, second


def pick(first, second):
    """`no volume`, `disagree`, or the active area's number and its superblock."""
    if not first and not second:
        return "no volume"
    if first and second and first.volume() != second.volume():
        return "disagree"
    if first and (not second or second.serial <= first.serial):
        return 1, first
    return 2, second


# Nodes


class Node(NamedTuple):
    """A node with every block that its pointers lead to: level, index, block; level 0 is a leaf."""

    root: Root
    visits: list

    def leaves(self):
        """Leaf numbers and their blocks, ascending."""
        return {index: block for level, index, block in self.visits if level == 0}

    def blocks(self):
        return [block for _, _, block in self.visits]


class Blocks:
    """The blocks of an image, and how nodes are read from them."""

    def __init__(self, image, found):
        self.image = image
        self.order = found.order
        self.size = found.blocksize
        self.count = found.num_blocks
        self.per_block = found.blocksize // 4

    def read(self, block):
        at = BLOCKS_BEGIN + block * self.size
        return bytes(self.image[at : at + self.size])

    def words(self, block):
        return read_words(self.read(block), self.order)

    def leaves_below(self, size):
        """How many leaves a size has, the last one maybe in part."""
        return -(-size // self.size)

    def least_levels(self, leaves):
        return next(levels for levels in range(6) if leaves <= 16 * self.per_block**levels)

    def follow(self, root):
        """Each pointer to leaves below the size that isn't absent, depth first, ascending: level, index, block.

        A pointer's words are read when the next one is asked for, so that the caller can test it before."""
        leaves = self.leaves_below(root.size)

        def below(pointers, level, first):
            for index, block in enumerate(pointers, first):
                if index * self.per_block**level >= leaves:
                    return
                if block == ABSENT:
                    continue
                yield level, index, block
                if level > 0:
                    yield from below(self.words(block), level - 1, index * self.per_block)

        return below(root.pointers, root.levels, 0)


# Records


class Row(NamedTuple):
    """A record in use whose length is a valid one: a name, or the number and the checksum of a long one."""

    place: int
    block: int
    inode: int
    name: bytes
    number: int
    sum: int

    def is_short(self):
        return self.number is None


def name_sums(name):
    """The checksum over unsigned bytes, and that over signed ones."""
    sums = []
    for value in (lambda byte: byte, lambda byte: byte - 256 if byte >= 128 else byte):
        result = 0
        for byte in name:
            flip = 0x80000000 if result & 1 else 0
            result = (((result >> 1) + value(byte)) % 2**32) ^ flip
        sums.append(result)
    return sums


class Walk:
    """The tree, in the order of its tests. It ends with Damaged at the first that fails."""

    def __init__(self, image, found):
        self.found = found
        self.blocks = Blocks(image, found)
        self.met = set()
        self.nodes = {}  # the reached inodes' nodes, none for a special one
        self.kinds = {}
        self.rows = {}  # of the reached directories
        self.inodes = self.walk_root(found.inodes)
        self.longfile = self.walk_root(found.longfile)
        self.bitmap = self.walk_root(found.bitmap)
        self.inode_leaves = self.inodes.leaves()
        self.long_leaves = self.longfile.leaves()
        self.walk_inodes()

    def walk_root(self, root):
        if root.size > self.blocks.count * self.blocks.size:
            raise Damaged(1, 0)
        return self.walk_node(0, root)

    def walk_node(self, owner, root):
        if root.levels > 5 or root.size > MOST_BYTES:
            raise Damaged(1, owner)
        if root.size > 16 * self.blocks.per_block**root.levels * self.blocks.size:
            raise Damaged(1, owner)
        visits = []
        for level, index, block in self.blocks.follow(root):
            if block >= self.blocks.count:
                raise Damaged(2, owner, block)
            if block in self.met:
                raise Damaged(3, owner, block)
            self.met.add(block)
            visits.append((level, index, block))
        return Node(root, visits)

    # Inodes

    def has_inode(self, number):
        return number * INODE_SIZE <= self.found.inodes.size

    def inode_bytes(self, number):
        """128 bytes, all 0 in a hole."""
        leaf, at = divmod((number - 1) * INODE_SIZE, self.blocks.size)
        if leaf not in self.inode_leaves:
            return bytes(INODE_SIZE)
        start = BLOCKS_BEGIN + self.inode_leaves[leaf] * self.blocks.size + at
        return bytes(self.blocks.image[start : start + INODE_SIZE])

    def kind_of(self, number):
        return KINDS.get(read_number(self.inode_bytes(number), self.blocks.order, 32, 2) >> 12)

    def walk_inodes(self):
        if not self.has_inode(1):
            raise Damaged(4, 1)
        if self.kind_of(1) != DIRECTORY:
            raise Damaged(5, 1)
        self.parents = {1: 1}  # of every listed inode
        waiting = deque([1])
        while waiting:
            number = waiting.popleft()
            for named in self.walk_inode(number):
                if named not in self.parents:
                    self.parents[named] = number
                    waiting.append(named)

    def walk_inode(self, number):
        """Tests one inode; the inodes that its rows name."""
        kind = self.kinds[number] = self.kind_of(number)
        self.nodes[number] = None
        if kind == SPECIAL:
            return []
        root = read_root(self.inode_bytes(number), self.blocks.order, 0, 100)
        self.nodes[number] = self.walk_node(number, root)
        if kind == LINK and not 1 <= root.size <= 1023:
            raise Damaged(6, number)
        return self.walk_rows(number) if kind == DIRECTORY else []

    # Directories

    def records(self, number):
        """Each record in a present leaf: place, block, bytes. Those in holes are unused."""
        node = self.nodes[number]
        per_leaf = self.blocks.size // RECORD_SIZE
        count = node.root.size // RECORD_SIZE
        for leaf, block in node.leaves().items():
            data = self.blocks.read(block)
            for slot in range(min(per_leaf, count - leaf * per_leaf)):
                yield leaf * per_leaf + slot, block, data[slot * RECORD_SIZE : (slot + 1) * RECORD_SIZE]

    def long_name(self, number):
        """The name of this number, or none."""
        if number * self.blocks.size >= self.found.longfile.size or number not in self.long_leaves:
            return None
        leaf = self.blocks.read(self.long_leaves[number])
        length = read_number(leaf, self.blocks.order, 0, 2)
        return leaf[2 : 2 + length] if 1 <= length <= 510 else None

    def row_of(self, directory, place, block, data):
        """The row of a record, or none where it is unused."""
        order = self.blocks.order
        inode, length = read_number(data, order, 0, 4), data[4]
        if inode == 0 or length == 0:
            return None
        if length <= 27:
            return Row(place, block, inode, data[5 : 5 + length], None, None)
        if length != 255:
            raise Damaged(7, directory, block)
        number, total = read_number(data, order, 8, 4), read_number(data, order, 12, 4)
        name = self.long_name(number)
        if name is None:
            raise Damaged(8, directory, block)
        if total not in name_sums(name):
            raise Damaged(9, directory, block)
        return Row(place, block, inode, name, number, total)

    def walk_rows(self, directory):
        """Tests a directory's rows; the inodes that they name, each at its first."""
        rows = self.rows[directory] = []
        names = set()
        named = {}  # in the order of their first rows
        for place, block, data in self.records(directory):
            row = self.row_of(directory, place, block, data)
            if row is None:
                continue
            rows.append(row)
            if b"\0" in row.name or b"/" in row.name:
                raise Damaged(11, directory, block)
            if row.name in names:
                raise Damaged(10, directory, block)
            names.add(row.name)
            if row.name in (b".", b".."):
                wanted = directory if row.name == b"." else self.parents[directory]
                if row.inode != wanted:
                    raise Damaged(12, directory, block)
                continue
            if not self.has_inode(row.inode):
                raise Damaged(4, directory, block)
            kind = self.kind_of(row.inode)
            if kind is None:
                raise Damaged(5, directory, block)
            if kind == DIRECTORY and (row.inode in self.parents or row.inode in named):
                raise Damaged(13, directory, block)
            named[row.inode] = True
        return named


# The layout for writing


class SystemTree:
    """A bitmap or an Inode tree as it stands in a half: leaves from block `first` on, then its pointer blocks."""

    def __init__(self, blocksize, first, size):
        self.per_block = blocksize // 4
        self.first = first
        self.size = size
        self.leaves = -(-size // blocksize)
        self.levels = next(levels for levels in range(6) if self.leaves <= 16 * self.per_block**levels)
        self.end = self.start(self.levels + 1)

    def width(self, level):
        """How many blocks a level has."""
        return -(-self.leaves // self.per_block**level)

    def start(self, level):
        """The first block of a level."""
        return self.first + sum(self.width(below) for below in range(level))

    def pointer(self, level, index):
        """The block at a place of a level, absent past its last."""
        return self.start(level) + index if index < self.width(level) else ABSENT

    def root(self):
        return Root(self.size, tuple(self.pointer(self.levels, index) for index in range(16)), self.levels)

    def pointer_blocks(self):
        """Each pointer block with its words."""
        for level in range(1, self.levels + 1):
            for index in range(self.width(level)):
                first = index * self.per_block
                words = tuple(self.pointer(level - 1, first + word) for word in range(self.per_block))
                yield self.pointer(level, index), words


class Layout:
    """Where a volume of this length, block size and number of inodes has its halves."""

    def __init__(self, length, blocksize, num_inodes):
        self.num_blocks = max(length // 4096 * 4096 - 0x4000, 0) // blocksize
        bits, table = -(-self.num_blocks // 8), num_inodes * INODE_SIZE
        self.bitmaps, self.tables = [], []
        block = 0
        for _ in range(2):
            self.bitmaps.append(SystemTree(blocksize, block, bits))
            self.tables.append(SystemTree(blocksize, self.bitmaps[-1].end, table))
            block = self.tables[-1].end
        self.first_user = block


def is_permitted(length, blocksize, num_inodes):
    """Whether a volume can be laid out so. A valid superblock has one of the four block sizes."""
    if not 16 <= num_inodes <= 2**20 or length // 4096 * 4096 < 0x4000:
        return False
    layout = Layout(length, blocksize, num_inodes)
    return layout.first_user + 17 <= layout.num_blocks <= 2**28


class Reasons:
    """Why a tree that can be read isn't as this project writes one: the first reason that holds ends with Foreign."""

    def __init__(self, image, area, found, walk):
        self.length = len(image)
        self.active = area - 1
        self.found = found
        self.walk = walk
        self.blocks = walk.blocks
        self.test_geometry()
        self.layout = Layout(self.length, found.blocksize, found.num_inodes)
        # The nodes outside the halves, 0 being the Longfile
        self.nodes = {0: walk.longfile, **{n: node for n, node in sorted(walk.nodes.items()) if node}}
        self.outer = sorted(block for node in self.nodes.values() for block in node.blocks())
        self.test_halves()
        self.test_bits()
        for test in (self.fails_node, self.fails_dots, self.fails_inode):
            self.test_least(*test())
        self.test_long_names()

    def test_geometry(self):
        found = self.found
        if not is_permitted(self.length, found.blocksize, found.num_inodes):
            raise Foreign(1, 0)
        if (self.length // 4096 * 4096 - 0x4000) // found.blocksize != found.num_blocks:
            raise Foreign(1, 0)
        if found.version1 != 1:
            raise Foreign(1, 0)
        if found.fourth.size != 0 or any(pointer != ABSENT for pointer in found.fourth.pointers):
            raise Foreign(1, 0)

    def test_halves(self):
        layout = self.layout
        if self.found.inodes != layout.tables[self.active].root():
            raise Foreign(2, 0)
        if self.found.bitmap != layout.bitmaps[self.active].root():
            raise Foreign(2, 0)
        for tree in layout.bitmaps + layout.tables:
            if any(self.blocks.words(block) != words for block, words in tree.pointer_blocks()):
                raise Foreign(2, 0)
        if self.outer and self.outer[0] < layout.first_user:
            raise Foreign(2, 0)

    def test_bits(self):
        """All bits to the end of the last leaf, in bytes whose lowest bit comes first."""
        tree = self.layout.bitmaps[self.active]
        bits = b"".join(self.blocks.read(tree.first + leaf) for leaf in range(tree.leaves))
        wanted = bytearray(len(bits))
        for block in (*range(self.layout.first_user), *self.outer, *range(self.found.num_blocks, 8 * len(bits))):
            wanted[block // 8] |= 1 << block % 8
        for at, (byte, other) in enumerate(zip(bits, wanted)):
            if byte != other:
                differing = byte ^ other
                raise Foreign(3, at * 8 + (differing & -differing).bit_length() - 1)

    @staticmethod
    def test_least(reason, failing):
        least = min(failing, default=None)
        if least is not None:
            raise Foreign(reason, least)

    # Reason 4: nodes, and the sizes of directories

    def fails_node(self):
        return 4, (n for n, node in self.nodes.items() if self.is_foreign_node(n, node))

    def is_foreign_node(self, number, node):
        root = node.root
        leaves = self.blocks.leaves_below(root.size)
        if root.levels != self.blocks.least_levels(leaves):
            return True
        if self.has_stray(node, leaves) or self.has_bare_block(node):
            return True
        if self.walk.kinds.get(number) != DIRECTORY:
            return False
        return root.size == 0 or root.size % self.blocks.size != 0 or len(node.leaves()) != leaves

    def has_stray(self, node, leaves):
        """Whether a pointer past the size isn't absent, in the node or in one of its pointer blocks."""
        per_block = self.blocks.per_block
        lists = [(node.root.levels, 0, node.root.pointers)]
        for level, index, block in node.visits:
            if level > 0:
                lists.append((level - 1, index * per_block, self.blocks.words(block)))
        return any(
            pointer != ABSENT and index * per_block**level >= leaves
            for level, first, pointers in lists
            for index, pointer in enumerate(pointers, first)
        )

    def has_bare_block(self, node):
        """Whether a pointer block has no present leaf."""
        per_block = self.blocks.per_block
        above = {
            (level, leaf // per_block**level)
            for leaf in node.leaves()
            for level in range(1, node.root.levels + 1)
        }
        return any(level > 0 and (level, index) not in above for level, index, _ in node.visits)

    # Reason 5: the first two records

    def fails_dots(self):
        return 5, (n for n, rows in self.walk.rows.items() if not self.has_dots(rows))

    @staticmethod
    def has_dots(rows):
        first = [(row.place, row.name) for row in rows[:2] if row.is_short()]
        return first == [(0, b"."), (1, b"..")]

    # Reason 6: inodes, reached or not

    def fails_inode(self):
        return 6, (n for n in range(1, self.found.num_inodes + 1) if self.is_foreign_inode(n))

    def is_foreign_inode(self, number):
        data = self.walk.inode_bytes(number)
        if number not in self.walk.kinds:
            return any(data)
        kind = self.walk.kinds[number]
        if kind == SPECIAL or data[101] != (1 if kind == DIRECTORY else 3):
            return True
        return any(data[34:36]) or any(data[102:])

    # Reason 7: long names

    def test_long_names(self):
        if self.found.longfile.size % self.blocks.size != 0:
            raise Foreign(7, 0)
        named = Counter(row.number for rows in self.walk.rows.values() for row in rows if not row.is_short())
        self.test_least(7, (number for number in self.walk.long_leaves if named[number] != 1))


# What comes last


def has_tail(blocks, node):
    """Whether a byte past the size isn't 0 in the leaf in which the size lies."""
    leaf, used = divmod(node.root.size, blocks.size)
    block = node.leaves().get(leaf)
    return used != 0 and block is not None and any(blocks.read(block)[used:])


def test_tails(walk):
    if has_tail(walk.blocks, walk.inodes):
        raise Damaged(14, 0)
    for number, node in sorted(walk.nodes.items()):
        if node and has_tail(walk.blocks, node):
            raise Damaged(14, number)


def test_counts(found, walk, reasons):
    user = found.num_blocks - reasons.layout.first_user
    if found.free_blocks != user - len(reasons.outer) or found.free_inodes != found.num_inodes - len(walk.kinds):
        raise Damaged(15, 0)


# Lines


def verdict(image):
    """The checker's line and its exit status."""
    picked = pick(*both_areas(image))
    if isinstance(picked, str):
        return picked, 2
    area, found = picked
    try:
        walk = Walk(image, found)
        reasons = Reasons(image, area, found, walk)
        test_tails(walk)
        test_counts(found, walk, reasons)
    except Damaged as finding:
        return str(finding), 2
    except Foreign as reason:
        return str(reason), 0
    counts = f"free blocks {found.free_blocks} free inodes {found.free_inodes}"
    return f"clean area {area} serial {found.serial} {counts}", 0


def super_line(image):
    """The line about the superblocks alone, and its exit status."""
    picked = pick(*both_areas(image))
    if isinstance(picked, str):
        return picked, 2
    area, found = picked
    numbers = f"blocksize {found.blocksize} blocks {found.num_blocks} inodes {found.num_inodes}"
    return f"area {area} serial {found.serial} {numbers} order {found.order}", 0


def open_image(path):
    """The bytes of a file, read as they are asked for."""
    with open(path, "rb") as file:
        if os.fstat(file.fileno()).st_size == 0:
            return b""
        return mmap.mmap(file.fileno(), 0, access=mmap.ACCESS_READ)


def main(words):
    say = verdict
    if words[:1] == ["-s"]:
        say, words = super_line, words[1:]
    if not words:
        sys.exit("usage: verify.py [-s] IMAGE..")
    status = 0
    for path in words:
        line, status = say(open_image(path))
        print(line)
    return status


if __name__ == "__main__":
    sys.exit(main(sys.argv[1:]))
