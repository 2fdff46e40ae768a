#!/usr/bin/env python3
"""Writes a volume with a tree, as this project lays volumes out: test data for the tools, sound by construction.

    python3 bench/volume.py IMAGE SIZE [options]

SIZE has K, M or G behind it for 2^10, 2^20 or 2^30 bytes. The first area has serial 1 and the empty tree, as the maker
leaves it; the second has serial 2, is the active one, and its half holds the tree. With no directories and no files
the image is the maker's, byte for byte. Every block of the tree is taken in the order in which a user would make it:
a directory's first leaf, then each file's leaves with its row, pointer blocks of directories and long names last.

Printed are the maker's line, what the tree has, and how many bytes a checker reads that takes what it has to test once:
both superblocks, the bitmap and the inodes of the active half, the pointer blocks of both halves, long names,
directories, pointer blocks, and of the last leaf of each node whose size isn't a multiple of the block size the bytes
past the size. The pieces are the blocks of these bytes that lie apart in the image.
"""
import argparse
import mmap
import os
import struct
import sys
from dataclasses import dataclass, field

sys.dont_write_bytecode = True  # no folders of compiled modules beside the sources
sys.path.insert(0, os.path.join(os.path.dirname(os.path.abspath(__file__)), "..", "examples"))
from small import ABSENT, AREA, BOOT, MOMENT, checksum

BLOCKS_BEGIN = BOOT + AREA
INODE_SIZE = 128
RECORD_SIZE = 32
SHORTEST_LONG = 28  # bytes of a name that no short record holds
TEXT = b"a line of a test file\n"


class Refused(Exception):
    """What the volume can't be, or can't hold."""


# The layout


@dataclass
class SystemTree:
    """A bitmap or an Inode tree of one half, with all its leaves in a row and its pointer blocks behind them."""

    first: int
    leaves: int
    size: int
    levels: int = 0
    pointers: list = field(default_factory=list)
    pointer_blocks: dict = field(default_factory=dict)  # block to its pointers, those past the last left out
    end: int = 0

    def __post_init__(self):
        self.end = self.first + self.leaves
        self.pointers = list(range(self.first, self.end))

    def build(self, per_block):
        """Puts levels above the leaves until 16 pointers are enough."""
        while len(self.pointers) > 16:
            groups = [self.pointers[at : at + per_block] for at in range(0, len(self.pointers), per_block)]
            above = list(range(self.end, self.end + len(groups)))
            self.pointer_blocks.update(zip(above, groups))
            self.pointers, self.levels, self.end = above, self.levels + 1, above[-1] + 1
        return self


class Geometry:
    """The numbers of a volume, and where its halves stand."""

    def __init__(self, length, blocksize, inodes):
        if blocksize not in (512, 1024, 2048, 4096):
            raise Refused("bad BlockSize")
        if not 16 <= inodes <= 2**20:
            raise Refused("bad Inodes")
        self.length, self.blocksize, self.inodes = length, blocksize, inodes
        self.per_block = blocksize // 4
        self.blocks = max(length // AREA * AREA - BLOCKS_BEGIN - AREA, 0) // blocksize
        self.bitmaps, self.tables = [], []
        end = 0
        for _ in range(2):
            self.bitmaps.append(self.tree(end, -(-self.blocks // 8)))
            self.tables.append(self.tree(self.bitmaps[-1].end, inodes * INODE_SIZE))
            end = self.tables[-1].end
        self.first_user = end
        if self.blocks < end + 17:
            raise Refused("bad TooShort")
        if self.blocks > 2**28:
            raise Refused("bad TooLarge")

    def tree(self, first, size):
        return SystemTree(first, -(-size // self.blocksize), size).build(self.per_block)

    def place(self, block):
        return BLOCKS_BEGIN + block * self.blocksize


# What a tree has, in the order of making


@dataclass
class Entry:
    """A row of a directory. Directories are numbered from 0, the root, in the order of their entries."""

    kind: str  # directory, file, link, or same: another row of the file entry before it
    parent: int
    name: bytes
    size: int = 0
    has_hole: bool = False
    target: bytes = b""


@dataclass
class Plan:
    """How many of what a tree has."""

    directories: int = 0
    depth: int = 1
    files: int = 0  # in each directory, the root too
    sizes: tuple = (0,)  # taken in turn
    holes: int = 0  # every so manieth file has one
    long_share: int = 0  # percent of the names of files and directories
    longest: int = 255
    symlinks: int = 0  # in each directory
    hardlinks: int = 0  # in each directory, to its last file

    def inodes(self):
        return 1 + self.directories + (self.directories + 1) * (self.files + self.symlinks)

    def entries(self):
        """Chains of directories, each `depth` deep, and in each directory files, links and further rows."""
        names, sizes = Names(self.long_share, self.longest), Sizes(self.sizes, self.holes)
        yield from self.rows_in(0, names, sizes)
        for number in range(1, self.directories + 1):
            parent = 0 if (number - 1) % self.depth == 0 else number - 1
            yield Entry("directory", parent, names.next(b"d%d" % number))
            yield from self.rows_in(number, names, sizes)

    def rows_in(self, directory, names, sizes):
        name = b""
        for number in range(self.files):
            name = names.next(b"f%d" % number)
            size, has_hole = sizes.next()
            yield Entry("file", directory, name, size, has_hole)
        for number in range(self.hardlinks if self.files else 0):
            yield Entry("same", directory, b"h%d" % number)
        for number in range(self.symlinks):
            yield Entry("link", directory, b"l%d" % number, target=name or b"nowhere")


class Names:
    """Gives a share of all names a tail that makes them long, with lengths in turn."""

    LETTERS = "a-long-näme-".encode()  # two bytes above 127 tell the two checksums of names apart

    def __init__(self, share, longest):
        self.share, self.longest, self.count, self.long = share, longest, 0, 0

    def next(self, stem):
        self.count += 1
        if self.count * self.share // 100 == (self.count - 1) * self.share // 100:
            return stem
        length = SHORTEST_LONG + self.long * 37 % (self.longest - SHORTEST_LONG + 1)
        self.long += 1
        tail = self.LETTERS * (length // len(self.LETTERS) + 1)
        return (stem + b"-" + tail)[:length]


class Sizes:
    """Takes sizes in turn, and says which file has a hole."""

    def __init__(self, sizes, holes):
        self.sizes, self.holes, self.count = sizes, holes, 0

    def next(self):
        size = self.sizes[self.count % len(self.sizes)]
        self.count += 1
        return size, self.holes > 0 and self.count % self.holes == 0


def text_of(at, count):
    """The bytes of any test file from a place on."""
    skipped = at % len(TEXT)
    return (TEXT * ((skipped + count) // len(TEXT) + 1))[skipped : skipped + count]


def pieces_of(entry, blocksize):
    """The ranges of a file that are written, as first leaf and last leaf plus one; a hole leaves the two ends."""
    leaves = -(-entry.size // blocksize)
    return [(0, 1), (leaves - 1, leaves)] if entry.has_hole and leaves > 2 else [(0, leaves)] if leaves else []


# Writing the tree into an image


class Node:
    """The leaves of a node, from which its pointers are made."""

    def __init__(self):
        self.size = 0
        self.leaves = {}  # leaf number to block, ascending

    def pointers(self, volume):
        """16 pointers and the levels; takes the pointer blocks that the present leaves have above them."""
        count = -(-self.size // volume.geometry.blocksize)
        layer, levels = self.leaves, 0
        while count > 16:
            above = {}
            for index, block in layer.items():
                above.setdefault(index // volume.geometry.per_block, {})[index % volume.geometry.per_block] = block
            layer = {index: volume.put_pointers(words) for index, words in above.items()}
            count, levels = -(-count // volume.geometry.per_block), levels + 1
        return [layer.get(index, ABSENT) for index in range(16)], levels


class Directory(Node):
    """A directory whose rows are put one behind the other."""

    def __init__(self, volume, inode, parent, first=None):
        super().__init__()
        self.inode, self.parent = inode, parent
        self.rows = 0
        self.add_leaf(volume, first if first is not None else volume.take())
        self.add(volume, b".", inode)
        self.add(volume, b"..", parent)

    def add_leaf(self, volume, block):
        self.leaves[len(self.leaves)] = block
        self.size += volume.geometry.blocksize
        volume.to_read.add(block)

    def add(self, volume, name, inode):
        if self.rows * RECORD_SIZE == self.size:
            self.add_leaf(volume, volume.take())
        leaf, at = divmod(self.rows * RECORD_SIZE, volume.geometry.blocksize)
        volume.put(self.leaves[leaf], at, volume.record(inode, name))
        self.rows += 1


class Volume:
    """An image under the pen. Half 1 and the second superblock are the tree's."""

    def __init__(self, image, geometry, order):
        self.image, self.geometry = image, geometry
        self.mark = "<" if order == "little" else ">"
        self.next_block = geometry.first_user + 1  # the first user block is the empty tree's root directory
        self.next_inode = 1
        self.longfile = Node()
        self.to_read = set()  # blocks of the tree in which a checker has to read
        self.before_sizes = 0  # bytes before the size in those of them that are the last leaf of a file or a link

    def put(self, block, at, data):
        start = self.geometry.place(block) + at
        self.image[start : start + len(data)] = data

    def pack(self, form, *values):
        return struct.pack(self.mark + form, *values)

    def take(self, count=1):
        """The first of the next user blocks."""
        first = self.next_block
        self.next_block += count
        if self.next_block > self.geometry.blocks:
            raise Refused("the tree has too many blocks")
        return first

    def take_inode(self):
        number = self.next_inode
        self.next_inode += 1
        if number > self.geometry.inodes:
            raise Refused("the tree has too many inodes")
        return number

    def put_pointers(self, words):
        """A new pointer block with these words, the others absent."""
        block = self.take()
        self.to_read.add(block)
        values = [words.get(index, ABSENT) for index in range(self.geometry.per_block)]
        self.put(block, 0, self.pack(f"{len(values)}I", *values))
        return block

    # Records

    def record(self, inode, name):
        """The 32 bytes of a row; a long name gets a leaf of its own."""
        if len(name) < SHORTEST_LONG:
            return self.pack("IB27s", inode, len(name), name)
        number = len(self.longfile.leaves)
        block = self.longfile.leaves[number] = self.take()
        self.to_read.add(block)
        self.longfile.size += self.geometry.blocksize
        self.put(block, 0, self.pack("H", len(name)) + name)
        return self.pack("IB3xII16x", inode, 255, number, name_sum(name))

    def put_inode(self, half, number, mode, status, node, pointers, levels):
        data = self.pack("QII4IHH", node.size, 0, 0, *[MOMENT] * 4, mode, 0)
        data += self.pack("16I", *pointers) + bytes([levels, status])
        start = self.geometry.place(self.geometry.tables[half].first) + (number - 1) * INODE_SIZE
        self.image[start : start + INODE_SIZE] = data.ljust(INODE_SIZE, b"\0")

    def put_directory(self, half, directory):
        self.put_inode(half, directory.inode, 0o40755, 1, directory, *directory.pointers(self))

    # Files and links

    def add_file(self, entry):
        node = Node()
        node.size = entry.size
        for first, end in pieces_of(entry, self.geometry.blocksize):
            block = self.take(end - first)
            node.leaves.update(zip(range(first, end), range(block, block + end - first)))
            at = first * self.geometry.blocksize
            self.put(block, 0, text_of(at, min(end * self.geometry.blocksize, entry.size) - at))
        return self.add_node(node, 0o100644)

    def add_link(self, entry):
        node = Node()
        node.size = len(entry.target)
        node.leaves[0] = self.take()
        self.put(node.leaves[0], 0, entry.target)
        return self.add_node(node, 0o120777)

    def add_node(self, node, mode):
        number = self.take_inode()
        self.put_inode(1, number, mode, 3, node, *node.pointers(self))
        last, before = divmod(node.size, self.geometry.blocksize)
        if before:
            self.to_read.add(node.leaves[last])
            self.before_sizes += before
        return number

    # The whole

    def write(self, entries):
        """The empty tree in half 0, the tree in half 1, and the two superblocks."""
        entries = list(entries)
        first_user = self.geometry.first_user
        empty = Directory(self, 1, 1, first_user)
        self.put_directory(0, empty)
        self.put_half(0, range(first_user, first_user + 1))
        self.put_superblock(0, 1, Node(), [ABSENT] * 16, 0, 1, 1)

        self.next_inode = 2
        directories = [empty]
        if entries:
            # A changed root directory gets a fresh block, since the first area's tree holds the old one.
            self.to_read.clear()
            directories = [Directory(self, 1, 1)]
        self.add_entries(entries, directories)
        for directory in directories:
            self.put_directory(1, directory)
        pointers, levels = self.longfile.pointers(self)
        held = range(first_user + 1, self.next_block) if entries else range(first_user, first_user + 1)
        self.put_half(1, held)
        self.put_superblock(1, 2, self.longfile, pointers, levels, len(held), self.next_inode - 1)
        self.add_system_reads()

    def add_entries(self, entries, directories):
        inode = 0
        for entry in entries:
            parent = directories[entry.parent]
            if entry.kind == "directory":
                inode = self.take_inode()
                directories.append(Directory(self, inode, parent.inode))
            elif entry.kind == "file":
                inode = self.add_file(entry)
            elif entry.kind == "link":
                parent.add(self, entry.name, self.add_link(entry))
                continue
            parent.add(self, entry.name, inode)

    def put_half(self, half, held):
        """The bitmap, and the pointer blocks of both trees. All user blocks that are held stand in a row."""
        bitmap, table = self.geometry.bitmaps[half], self.geometry.tables[half]
        total = bitmap.leaves * self.geometry.blocksize * 8
        used = [range(self.geometry.first_user), held, range(self.geometry.blocks, total)]
        bits = sum((1 << run.stop) - (1 << run.start) for run in used)
        self.put(bitmap.first, 0, bits.to_bytes(total // 8, "little"))
        for tree in (bitmap, table):
            for block, words in tree.pointer_blocks.items():
                words = words + [ABSENT] * (self.geometry.per_block - len(words))
                self.put(block, 0, self.pack(f"{len(words)}I", *words))

    def root_node(self, size, pointers, levels):
        pointers = pointers + [ABSENT] * (16 - len(pointers))
        return self.pack("Q16IB7x", size, *pointers, levels)

    def put_superblock(self, half, serial, longfile, pointers, levels, held, live):
        geometry = self.geometry
        bitmap, table = geometry.bitmaps[half], geometry.tables[half]
        body = self.pack("QIIIHH16x", serial, MOMENT, MOMENT, 0, 1, 0)
        free = geometry.blocks - geometry.first_user - held
        body += self.pack("6I", geometry.blocksize, geometry.inodes, geometry.inodes - live, geometry.blocks, free, 0)
        body += self.root_node(table.size, table.pointers, table.levels)
        body += self.root_node(bitmap.size, bitmap.pointers, bitmap.levels)
        body += self.root_node(longfile.size, pointers, levels)
        body += self.root_node(0, [], 0)
        body = body.ljust(504, b"\0")
        # 4,096 is a multiple of each block size, so the second area follows the last block at once.
        place = geometry.place(geometry.blocks) if half else BOOT
        self.image[place : place + 512] = self.pack("II", 0x68191122, checksum(body)) + body

    def add_system_reads(self):
        """The active half, and the pointer blocks of the other one."""
        self.to_read.update(range(self.geometry.bitmaps[1].first, self.geometry.first_user))
        for tree in (self.geometry.bitmaps[0], self.geometry.tables[0]):
            self.to_read.update(tree.pointer_blocks)

    def bytes_to_read(self):
        """The superblocks' too."""
        return 2 * 512 + len(self.to_read) * self.geometry.blocksize - self.before_sizes

    def runs_to_read(self):
        """In how many pieces the blocks of these bytes stand in the image."""
        return 2 + sum(block - 1 not in self.to_read for block in self.to_read)


def name_sum(name):
    """The checksum of a long name, over unsigned bytes."""
    total = 0
    for byte in name:
        total = ((total >> 1) + byte) ^ (0x80000000 if total & 1 else 0)
    return total


def write_volume(path, geometry, order, entries):
    """Writes the image."""
    with open(path, "wb+") as file:
        file.truncate(geometry.length)
        with mmap.mmap(file.fileno(), geometry.length) as image:
            volume = Volume(image, geometry, order)
            volume.write(entries)
            return volume


# Writing the same tree as a folder


def write_folder(folder, blocksize, entries):
    """The same names, bytes, links and holes as ordinary files, for tools of other file systems."""
    os.mkdir(folder)
    directories = [os.fsencode(folder)]
    path = b""
    for entry in entries:
        before, path = path, os.path.join(directories[entry.parent], entry.name)
        if entry.kind == "directory":
            os.mkdir(path)
            directories.append(path)
        elif entry.kind == "file":
            last_file = path
            with open(path, "wb") as file:
                for first, end in pieces_of(entry, blocksize):
                    at = first * blocksize
                    file.seek(at)
                    file.write(text_of(at, min(end * blocksize, entry.size) - at))
        elif entry.kind == "link":
            os.symlink(entry.target, path)
        else:
            os.link(last_file, path)


# Words


def size_of(word):
    """Bytes, with K, M or G behind them for 2^10, 2^20 or 2^30."""
    shift = {"K": 10, "M": 20, "G": 30}.get(word[-1:], 0)
    return int(word[:-1] if shift else word) << shift


def default_inodes(length):
    """One for each whole 4,096 bytes, as the maker has it."""
    return min(max(length // 4096, 16), 2**20)


def read_words():
    words = argparse.ArgumentParser(description="Writes a volume with a tree.")
    words.add_argument("image")
    words.add_argument("size", type=size_of)
    words.add_argument("-b", "--blocksize", type=int, default=512)
    words.add_argument("-i", "--inodes", type=int, help="one for each 4,096 bytes by default")
    words.add_argument("-e", "--order", choices=["little", "big"], default="little")
    words.add_argument("--directories", type=int, default=0, help="beside the root")
    words.add_argument("--depth", type=int, default=1, help="of each chain of directories")
    words.add_argument("--files", type=int, default=0, help="in each directory")
    words.add_argument("--sizes", default="0", help="of files, taken in turn, parted by commas")
    words.add_argument("--holes", type=int, default=0, help="every so manieth file has a hole")
    words.add_argument("--long", type=int, default=0, help="percent of names above 27 bytes")
    words.add_argument("--longest", type=int, default=255, help="bytes of a name, at most 510")
    words.add_argument("--symlinks", type=int, default=0, help="in each directory")
    words.add_argument("--hardlinks", type=int, default=0, help="further rows of a file in each directory")
    words.add_argument("--folder", help="writes the same tree to this new folder as well")
    return words.parse_args()


def main():
    words = read_words()
    plan = Plan(
        words.directories,
        words.depth,
        words.files,
        tuple(size_of(size) for size in words.sizes.split(",")),
        words.holes,
        words.long,
        words.longest,
        words.symlinks,
        words.hardlinks,
    )
    try:
        geometry = Geometry(words.size, words.blocksize, words.inodes or default_inodes(words.size))
        volume = write_volume(words.image, geometry, words.order, plan.entries())
    except Refused as refused:
        if os.path.exists(words.image):
            os.remove(words.image)  # a tree that doesn't fit is found out on the way
        sys.exit(str(refused))
    user = geometry.blocks - geometry.first_user
    free_inodes = geometry.inodes - plan.inodes()
    held = max(volume.next_block - geometry.first_user - 1, 1)
    print(f"made blocks {geometry.blocks} user {user} free {user - held} inodes {geometry.inodes}")
    long_names = len(volume.longfile.leaves)
    print(f"tree directories {plan.directories + 1} inodes {plan.inodes()} free {free_inodes} long names {long_names}")
    print(f"to read {volume.bytes_to_read()} in {volume.runs_to_read()} pieces")
    if words.folder:
        write_folder(words.folder, geometry.blocksize, plan.entries())


if __name__ == "__main__":
    main()
