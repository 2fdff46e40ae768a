#!/usr/bin/env python3
"""Small changes in small volumes, each with the line that the checker has to give, derived by hand from the format.

    python3 bench/cases.py              compares bench/verify.py with the table
    python3 bench/cases.py --bytes      prints each case as changed bytes of its volume, in both byte orders

EMPTY, POINTERS, PART and SIXTEEN are the maker's volumes of 65,536 bytes with 16, 80, 18 and 64 inodes, made at moment
1000.

Each case stands for a code, a reason, or a byte that no test reads, and holds in both byte orders. Superblocks that
are changed get their right checksum again, but where a case says otherwise. `bench/compare` tries the program on them.
"""
import os
import sys
import tempfile
from typing import NamedTuple

sys.dont_write_bytecode = True  # no folders of compiled modules beside the sources
import verify
import volume
from verify import ABSENT, FIRST_AREA, INODE_SIZE, RECORD_SIZE, SUPER_SIZE, name_sums
from volume import Entry

LENGTH = 65536
BLOCKSIZE = 512
COUNT = 96  # blocks
SECOND_AREA = 61440
AREAS = {1: FIRST_AREA, 2: SECOND_AREA}
NAME = "é".encode() * 14  # 28 bytes, all above 127


class Base(NamedTuple):
    """A volume of 64 KiB with blocks of 512 bytes; the second area is active."""

    inodes: int
    entries: list
    table: int  # the first inode leaf of the second half
    bitmap: int  # its bitmap leaf
    clean: str


# Its root directory's rows stand in block 10.
EMPTY = Base(16, [], 6, 5, "clean area 2 serial 2 free blocks 85 free inodes 15")
# Each Inode tree has 20 leaves and a pointer block: 1 to 20 and 21, 23 to 42 and 43. The root directory is in block 44.
POINTERS = Base(80, [], 23, 22, "clean area 2 serial 2 free blocks 51 free inodes 79")
# The last inode leaf, block 11, has inodes 17 and 18 and then 256 bytes past the size. The root directory is in block 12.
PART = Base(18, [], 7, 6, "clean area 2 serial 2 free blocks 83 free inodes 17")
# An Inode tree of just 16 leaves has no pointer block. The root directory is in block 34.
SIXTEEN = Base(64, [], 18, 17, "clean area 2 serial 2 free blocks 61 free inodes 63")
# Block 11 has the root's rows `.`, `..`, d, a, l, p, h, q; block 12 those of d. Block 14 is the leaf of long name 0.
# Block 10 is free; blocks 11 to 24 are held.
TREE = Base(
    16,
    [
        Entry("directory", 0, b"d"),  # inode 2, block 12
        Entry("file", 0, b"a", 3),  # inode 3, block 13
        Entry("file", 1, NAME),  # inode 4, record 2 of d
        Entry("link", 0, b"l", target=b"a"),  # inode 5, block 15
        Entry("file", 0, b"p", 130 * BLOCKSIZE, has_hole=True),  # inode 6: leaves 0, 129 in 16, 17 below pointers 18, 19
        Entry("same", 0, b"h"),  # inode 6
        # inode 7: leaves 0, 2099 in 20, 21 below pointers 22, 23 of level 1, and 24 of level 2, words 0 and 16
        Entry("file", 0, b"q", 2100 * BLOCKSIZE, has_hole=True),
    ],
    6,
    5,
    "clean area 2 serial 2 free blocks 72 free inodes 9",
)
BASES = {"EMPTY": EMPTY, "POINTERS": POINTERS, "PART": PART, "SIXTEEN": SIXTEEN, "TREE": TREE}
# Leaves of p and q, whose bytes no test reads: they are made 0, so that the image differs from the maker's in few bytes.
DATA_BLOCKS = {"TREE": (16, 17, 20, 21)}


def block_at(block):
    return 0x3000 + block * BLOCKSIZE


def base_image(name, order):
    base = BASES[name]
    with tempfile.TemporaryDirectory() as folder:
        path = os.path.join(folder, "image")
        volume.write_volume(path, volume.Geometry(LENGTH, BLOCKSIZE, base.inodes), order, base.entries)
        with open(path, "rb") as file:
            image = bytearray(file.read())
    for block in DATA_BLOCKS.get(name, ()):
        image[block_at(block) : block_at(block + 1)] = bytes(BLOCKSIZE)
    return bytes(image)


class Edited:
    """An image under change."""

    def __init__(self, base, image, order):
        self.base, self.image, self.order = base, bytearray(image), order
        self.sealed = True

    def put(self, at, width, value):
        self.image[at : at + width] = value.to_bytes(width, self.order)

    def seal(self, image):
        """Makes the checksums of changed superblocks right."""
        for place in AREAS.values():
            if self.sealed and self.image[place : place + SUPER_SIZE] != image[place : place + SUPER_SIZE]:
                self.put(place + 4, 4, verify.checksum(bytes(self.image[place + 8 : place + SUPER_SIZE])))


# Changes: each is a function of the image under change


INODE_FIELDS = {"size": (0, 8), "mode": (32, 2), "ext_mode": (34, 2), "levels": (100, 1), "status": (101, 1)}
RECORD_FIELDS = {"inode": (0, 4), "length": (4, 1), "number": (8, 4), "sum": (12, 4)}
SUPER_FIELDS = {
    "serial": (8, 8),
    "flags": (24, 4),
    "version1": (28, 2),
    "version2": (30, 2),
    "blocksize": (48, 4),
    "num_inodes": (52, 4),
    "free_inodes": (56, 4),
    "num_blocks": (60, 4),
    "free_blocks": (64, 4),
    "allocgroup": (68, 4),
}
ROOT_PLACES = {"inodes": 72, "bitmap": 152, "longfile": 232, "fourth": 312}


def inode_at(edited, number):
    return block_at(edited.base.table) + (number - 1) * INODE_SIZE


def inode(number, field, value):
    at, width = INODE_FIELDS[field]
    return lambda edited: edited.put(inode_at(edited, number) + at, width, value)


def pointer(number, index, value):
    return lambda edited: edited.put(inode_at(edited, number) + 36 + 4 * index, 4, value)


def no_pointers(number):
    return [pointer(number, index, ABSENT) for index in range(16)]


def inode_byte(number, at, value):
    return lambda edited: edited.put(inode_at(edited, number) + at, 1, value)


def inode_copied(source, number):
    """Inode `number` with the bytes of inode `source`."""

    def change(edited):
        start, at = inode_at(edited, source), inode_at(edited, number)
        edited.image[at : at + INODE_SIZE] = edited.image[start : start + INODE_SIZE]

    return change


def inode_cleared(number):
    return [inode_byte(number, at, 0) for at in range(INODE_SIZE)]


def byte(block, at, value):
    return lambda edited: edited.put(block_at(block) + at, 1, value)


def word(block, index, value):
    return lambda edited: edited.put(block_at(block) + 4 * index, 4, value)


def field(block, place, name, value):
    at, width = RECORD_FIELDS[name]
    return lambda edited: edited.put(block_at(block) + place * RECORD_SIZE + at, width, value)


def row(block, place, inode_number, name):
    """A short record."""

    def change(edited):
        at = block_at(block) + place * RECORD_SIZE
        edited.put(at, 4, inode_number)
        edited.image[at + 4 : at + RECORD_SIZE] = bytes([len(name)]) + name.ljust(27, b"\0")

    return change


def long_row(block, place, inode_number, number, total):
    def change(edited):
        at = block_at(block) + place * RECORD_SIZE
        edited.image[at : at + RECORD_SIZE] = bytes(RECORD_SIZE)
        for name, value in (("inode", inode_number), ("length", 255), ("number", number), ("sum", total)):
            field(block, place, name, value)(edited)

    return change


def no_row(block, place):
    return [byte(block, place * RECORD_SIZE + at, 0) for at in range(RECORD_SIZE)]


def long_length(block, length):
    return lambda edited: edited.put(block_at(block), 2, length)


def long_name(block, name):
    def change(edited):
        long_length(block, len(name))(edited)
        edited.image[block_at(block) + 2 : block_at(block) + 2 + len(name)] = name

    return change


def bit(block, value):
    """A bit of the active bitmap."""

    def change(edited):
        at = block_at(edited.base.bitmap) + block // 8
        edited.image[at] = edited.image[at] & ~(1 << block % 8) | value << block % 8

    return change


def number(area, name, value):
    """A number of an area's superblock."""
    at, width = SUPER_FIELDS[name]
    return lambda edited: edited.put(AREAS[area] + at, width, value)


def super_byte(area, at, value):
    return lambda edited: edited.put(AREAS[area] + at, 1, value)


def root(name, part, value, area=2):
    """Size, levels or a pointer's number of a root node."""
    at, width = {"size": (0, 8), "levels": (72, 1)}.get(part) or (8 + 4 * part, 4)
    return lambda edited: edited.put(AREAS[area] + ROOT_PLACES[name] + at, width, value)


def shape(blocksize, count):
    """Another block size and number of blocks in both areas."""
    return [change for area in AREAS for change in (number(area, "blocksize", blocksize), number(area, "num_blocks", count))]


def unsealed(edited):
    """The checksums stay as they were."""
    edited.sealed = False


def length(count):
    def change(edited):
        edited.image = edited.image[:count].ljust(count, b"\0")

    return change


# The cases


class Case(NamedTuple):
    name: str
    base: str
    changes: list
    wanted: object  # a line, or one for each order
    why: str


def damaged(code, inode_number, block=ABSENT):
    return f"damaged {code} inode {inode_number} block {block}"


def foreign(reason, at):
    return f"foreign {reason} at {at}"


SIGNED = name_sums(NAME)[1]
SUM_OF_X = name_sums(b"x")[0]
FILE_MODE, FIFO_MODE, NO_MODE = 0x81A4, 0x11A4, 0x31A4

AREA_CASES = [
    ("unchanged", "EMPTY", [], EMPTY.clean, "both areas are valid; the second has the greater serial"),
    ("unchanged with pointer blocks", "POINTERS", [], POINTERS.clean, "52 user blocks, of which one is held"),
    ("unchanged with a part of a leaf", "PART", [], PART.clean, "84 user blocks, of which one is held"),
    ("unchanged tree", "TREE", [], TREE.clean, "86 user blocks, of which 11 to 24 are held; 7 of 16 inodes are live"),
    ("unchanged with 16 inode leaves", "SIXTEEN", [], SIXTEEN.clean, "62 user blocks, of which one is held; no level"),
    ("first area unsealed", "EMPTY", [super_byte(1, 16, 1), unsealed], EMPTY.clean,
     "the second area is looked for at the last 4,096 bytes"),
    ("second area unsealed", "EMPTY", [super_byte(2, 16, 1), unsealed],
     "clean area 1 serial 1 free blocks 85 free inodes 15", "the first area alone is valid"),
    ("both areas unsealed", "EMPTY", [super_byte(1, 16, 1), super_byte(2, 16, 1), unsealed], "no volume", "none is valid"),
    ("areas of two volumes", "EMPTY", [number(1, "num_inodes", 17)], "disagree", "both are valid and differ in num_inodes"),
    ("equal serials", "EMPTY", [number(1, "serial", 2)], "clean area 1 serial 2 free blocks 85 free inodes 15",
     "the first area counts at equal serials"),
    ("first area later", "EMPTY", [number(1, "serial", 3)], "clean area 1 serial 3 free blocks 85 free inodes 15",
     "the greater serial counts"),
    ("greatest serial", "EMPTY", [number(2, "serial", 2**64 - 1)],
     "clean area 2 serial 18446744073709551615 free blocks 85 free inodes 15", "a serial has 64 bits"),
    ("device cut in the second area", "EMPTY", [length(61951)], "no volume",
     "0x3200 + 96 * 512 is 61,952, so neither superblock fits the device"),
    ("device of a first area alone", "EMPTY", [length(0x2200)], "no volume", "the blocks don't fit the device"),
    ("device of nothing", "EMPTY", [length(0)], "no volume", "there is no place for an area"),
    ("device a byte longer", "EMPTY", [length(65537)], EMPTY.clean, "the length counts in whole 4,096 bytes"),
    ("device 4,095 bytes longer", "EMPTY", [length(69631)], EMPTY.clean, "the length counts in whole 4,096 bytes"),
    ("device 4,095 bytes longer without a first area", "EMPTY", [super_byte(1, 16, 1), unsealed, length(69631)], EMPTY.clean,
     "the second area is looked for at 65,536 - 4,096"),
    ("a second area that says another place", "EMPTY", [super_byte(1, 0, 0), number(2, "num_blocks", 95)], "no volume",
     "the first isn't valid, and the second says that it stands at 60,928"),
    ("blocks of 256 bytes", "EMPTY", [shape(256, 192)], "no volume", "the second place stays, but 256 is no block size"),
    ("blocks of 8,192 bytes", "EMPTY", [shape(8192, 6)], "no volume", "the second place stays, but 8,192 is no block size"),
    ("no blocks in the first superblock", "EMPTY", [number(1, "num_blocks", 0)], EMPTY.clean,
     "the first isn't valid; the second is looked for at the end"),
    ("one block too many for the device", "EMPTY", [number(1, "num_blocks", 104)], EMPTY.clean,
     "0x3200 + 104 * 512 is 66,048, so the first isn't valid; the second is looked for at the end"),
    ("as many blocks as fit the device", "EMPTY", [number(1, "num_blocks", 103)], foreign(1, 0),
     "0x3200 + 103 * 512 is 65,536, so the first is valid; the second is looked for at 65,024 and isn't there"),
    ("superblocks at the device's end", "EMPTY", [length(61952), inode(1, "levels", 6)], damaged(1, 1),
     "the second superblock ends with the device, and its half is the one that is damaged"),
]

# A file of d that is all hole, with a size at the reach of its levels and one byte above it. Each level has 128 times the
# reach of the one below.
REACHES = [8192 << 7 * levels for levels in range(6)]
REACH_CASES = [
    *((f"a hole of {size} bytes", "TREE", [inode(4, "size", size), inode(4, "levels", levels)], TREE.clean,
       f"{levels} levels reach it") for levels, size in enumerate(REACHES)),
    *((f"a hole of {size + 1} bytes", "TREE", [inode(4, "size", size + 1), inode(4, "levels", levels)], damaged(1, 4),
       f"{levels} levels don't reach it") for levels, size in enumerate(REACHES)),
    *((f"a hole of {size} bytes, a level higher", "TREE", [inode(4, "size", size), inode(4, "levels", levels + 1)],
       foreign(4, 4), f"{levels} levels reach it") for levels, size in enumerate(REACHES[:5])),
]

# Each kind that a mode can say, of the file a. What isn't walked doesn't meet a's block.
KIND_LINES = {
    0x4: (foreign(4, 3), "a directory of 3 bytes, no multiple of 512"),
    0x8: (TREE.clean, "a file"),
    0xA: (TREE.clean, "a link of 3 bytes"),
    **{top: (foreign(6, 3), "a special's node isn't walked, so bit 13 has to be 0") for top in (0x1, 0x2, 0x6, 0xC)},
}
KIND_CASES = [
    (f"a mode of {top << 12 | 0o644:#x}", "TREE",
     [inode(3, "mode", top << 12 | 0o644), *([bit(13, 0)] if top in (0x1, 0x2, 0x6, 0xC) else [])],
     *KIND_LINES.get(top, (damaged(5, 1, 11), "no kind")))
    for top in range(16)
]

CODE_CASES = [
    # 1 Levels
    ("levels above 5", "EMPTY", [inode(1, "levels", 6)], damaged(1, 1), "5 levels are the most"),
    ("size above the levels' reach", "EMPTY", [inode(1, "size", 16 * 512 + 1)], damaged(1, 1), "no levels reach 16 leaves"),
    ("size at the levels' reach", "EMPTY", [inode(1, "size", 16 * 512)], foreign(4, 1),
     "16 leaves are reached; 15 of them are holes of a directory"),
    *REACH_CASES,
    ("size above 2^48", "EMPTY", [inode(1, "size", 2**48 + 1), inode(1, "levels", 5)], damaged(1, 1),
     "2^48 bytes are the most, and what 5 levels of 512 bytes reach"),
    ("Inode tree larger than the volume", "EMPTY", [root("inodes", "size", 96 * 512 + 1), root("inodes", "levels", 1)],
     damaged(1, 0), "one level reaches it, and a root node's size is at most that of all blocks"),
    ("Longfile as large as the volume", "EMPTY", [root("longfile", "size", 96 * 512), root("longfile", "levels", 1)], EMPTY.clean,
     "all its leaves are holes, and a root node's size may be that of all blocks"),
    ("Longfile larger than the volume", "EMPTY", [root("longfile", "size", 96 * 512 + 1), root("longfile", "levels", 1)],
     damaged(1, 0), "one byte more"),
    ("Longfile levels above 5", "EMPTY", [root("longfile", "levels", 6)], damaged(1, 0), "also where the size is 0"),
    ("Bitmap levels above 5", "EMPTY", [root("bitmap", "levels", 255)], damaged(1, 0), "the bitmap is walked too"),
    ("a file's levels above 5", "TREE", [inode(4, "levels", 6)], damaged(1, 4), "also where the size is 0"),
    # 2 Pointer
    ("pointer at num_blocks", "EMPTY", [pointer(1, 0, COUNT)], damaged(2, 1, COUNT), "the last block is 95"),
    ("pointer at the last block", "EMPTY", [pointer(1, 0, COUNT - 1)], foreign(3, 10),
     "block 95 is read as a directory without rows; bit 10 is set, and no node met block 10"),
    ("Inode root pointer past the blocks", "EMPTY", [root("inodes", 0, COUNT)], damaged(2, 0, COUNT), "inode 0 for root nodes"),
    ("Bitmap root pointer past the blocks", "EMPTY", [root("bitmap", 0, ABSENT - 1)], damaged(2, 0, ABSENT - 1),
     "0xFFFFFFFE is no absent pointer"),
    ("word of a pointer block past the blocks", "TREE", [word(18, 0, COUNT)], damaged(2, 6, COUNT), "p's word 0 leads to leaf 0"),
    ("word of a second pointer block past the blocks", "TREE", [word(19, 1, COUNT)], damaged(2, 6, COUNT),
     "word 1 of the second one leads to leaf 129"),
    ("word past the size past the blocks", "TREE", [word(19, 2, COUNT)], foreign(4, 6), "leaf 130 isn't below the size"),
    ("word of level 2 past the blocks", "TREE", [word(24, 16, COUNT)], damaged(2, 7, COUNT), "it leads to leaves 2048 to 2175"),
    ("pointer past the size past the blocks", "EMPTY", [pointer(1, 1, COUNT)], foreign(4, 1),
     "no path to a leaf below the size has it, so it is no bad pointer"),
    ("directory read as pointer blocks", "EMPTY", [inode(1, "size", 2**48), inode(1, "levels", 5)],
     (damaged(2, 1, 512), damaged(2, 1, 0xFF070000)),
     "block 10's word 0 is 1; block 1 is the first half's inode leaf, whose word 0 is the size 512, or in big order 0 and "
     "then the first word of the bitmap"),
    # 3 Twice
    ("one block for two leaves", "EMPTY", [inode(1, "size", 1024), pointer(1, 1, 10)], damaged(3, 1, 10), "leaf 1 meets it again"),
    ("a directory in the Inode tree", "EMPTY", [pointer(1, 0, 6)], damaged(3, 1, 6), "the Inode root met it"),
    ("Longfile and Bitmap share a leaf", "EMPTY", [root("longfile", "size", 512), root("longfile", 0, 5)], damaged(3, 0, 5),
     "the Longfile meets it first, the bitmap again"),
    ("a pointer block that points at itself", "TREE", [word(18, 0, 18)], damaged(3, 6, 18), "p met it as its pointer block"),
    ("a file's leaf as a pointer block", "TREE", [pointer(6, 0, 13)], damaged(3, 6, 13), "a met it"),
    ("two files share a leaf", "TREE", [word(18, 0, 13)], damaged(3, 6, 13), "a met it"),
    ("a free block as a pointer block", "TREE", [word(24, 1, 30)], damaged(3, 7, 0),
     "its words are 0: block 0, which the active tree hasn't met, is met by the first and again by the second"),
    # 4 NoInode
    ("no room for inode 1", "EMPTY", [root("inodes", "size", 0)], damaged(4, 1), "1 * 128 is above 0"),
    ("not quite room for inode 1", "EMPTY", [root("inodes", "size", 127)], damaged(4, 1), "1 * 128 is above 127"),
    ("room for inode 1 alone", "EMPTY", [root("inodes", "size", 128)], foreign(2, 0), "1 * 128 isn't above 128"),
    ("row above the Inode tree", "EMPTY", [row(10, 2, 17, b"x")], damaged(4, 1, 10), "17 * 128 is above 2,048"),
    ("row past the Inode tree's part", "EMPTY", [root("inodes", "size", 2047), row(10, 2, 16, b"x")], damaged(4, 1, 10),
     "16 * 128 is above 2,047"),
    ("greatest inode number", "EMPTY", [row(10, 2, 2**32 - 1, b"x")], damaged(4, 1, 10), "its place has more than 32 bits"),
    # 5 Kind
    ("row to an inode of zeros", "EMPTY", [row(10, 2, 2, b"x")], damaged(5, 1, 10), "mode 0 is no kind"),
    ("row to an inode in a hole", "EMPTY", [root("inodes", 3, ABSENT), row(10, 2, 16, b"x")], damaged(5, 1, 10),
     "inodes 13 to 16 read as zeros"),
    ("inode 1 is a file", "EMPTY", [inode(1, "mode", FILE_MODE)], damaged(5, 1), "inode 1 is a directory"),
    *KIND_CASES,
    ("inode 1 has no kind", "EMPTY", [inode(1, "mode", NO_MODE)], damaged(5, 1), "3 is no kind"),
    # 6 LinkSize
    ("link of no bytes", "TREE", [inode(5, "size", 0)], damaged(6, 5), "1 byte at least"),
    ("link of 1,024 bytes", "TREE", [inode(5, "size", 1024)], damaged(6, 5), "1,023 bytes at most"),
    ("link of 1,023 bytes", "TREE", [inode(5, "size", 1023)], TREE.clean, "its leaf 1 is a hole, which no reason forbids"),
    ("long link with a bad pointer", "TREE", [inode(5, "size", 1024), pointer(5, 1, COUNT)], damaged(2, 5, COUNT),
     "the node is walked before the size is tested"),
    # 7 Record
    ("record of length 28", "EMPTY", [byte(10, 4, 28)], damaged(7, 1, 10), "27 bytes are the most of a short name"),
    ("record of length 254", "EMPTY", [field(10, 3, "inode", 1), field(10, 3, "length", 254)], damaged(7, 1, 10),
     "also where it isn't the first"),
    ("record of length 27", "TREE", [row(11, 8, 3, b"n" * 27)], TREE.clean, "a further row of the file a"),
    ("unused record of length 28", "EMPTY", [field(10, 3, "length", 28)], EMPTY.clean, "inode 0 is unused, whatever the length"),
    ("unused record of inode 99", "EMPTY", [field(10, 3, "inode", 99)], EMPTY.clean, "length 0 is unused, whatever the inode"),
    # 8 LongName
    ("long name past the size", "TREE", [field(12, 2, "number", 1)], damaged(8, 2, 12), "1 * 512 isn't below 512"),
    ("long name in a hole", "TREE", [root("longfile", "size", 1024), field(12, 2, "number", 1)], damaged(8, 2, 12),
     "leaf 1 is below the size, and absent"),
    ("long name of no bytes", "TREE", [long_length(14, 0)], damaged(8, 2, 12), "1 byte at least"),
    ("long name of 511 bytes", "TREE", [long_length(14, 511)], damaged(8, 2, 12), "510 bytes at most"),
    ("long name of 510 bytes", "TREE", [long_name(14, b"n" * 510), field(12, 2, "sum", name_sums(b"n" * 510)[0])], TREE.clean,
     "the whole leaf"),
    ("long name in a part of a leaf", "TREE", [root("longfile", "size", 1)], foreign(7, 0),
     "leaf 0 begins below the size, so the name is there; the size is no multiple of 512"),
    # 9 LongSum
    ("long name with another sum", "TREE", [field(12, 2, "sum", 0)], damaged(9, 2, 12), "neither checksum is 0"),
    ("long name with the signed sum", "TREE", [field(12, 2, "sum", SIGNED)], TREE.clean, "the signed checksum is right as well"),
    ("sum before bytes", "TREE", [byte(14, 2, 0x2F)], damaged(9, 2, 12), "the checksum is tested before the name's bytes"),
    ("bytes 128 and 127 with the signed sum", "TREE",
     [long_name(14, b"\x80\x7f\x80"), field(12, 2, "sum", name_sums(b"\x80\x7f\x80")[1])], TREE.clean,
     "128 is negative, 127 isn't"),
    # 10 SameName
    ("a name twice", "TREE", [row(11, 4, 5, b"a")], damaged(10, 1, 11), "record 3 has the name a"),
    ("a short and a long name alike", "TREE",
     [long_name(14, b"x"), field(12, 2, "sum", SUM_OF_X), row(12, 3, 3, b"x")], damaged(10, 2, 12),
     "records of two forms, one name"),
    ("`.` twice", "TREE", [row(11, 4, 5, b".")], damaged(10, 1, 11), "tested before what `.` names"),
    ("a name twice before its inode", "TREE", [row(11, 4, 17, b"a")], damaged(10, 1, 11), "tested before the inode"),
    # 11 NameByte
    ("a slash in a name", "TREE", [row(11, 3, 3, b"/")], damaged(11, 1, 11), "no name has it"),
    ("a byte 0 in a name", "TREE", [row(11, 3, 3, b"a\0")], damaged(11, 1, 11), "within the length"),
    ("a slash in a long name", "TREE", [long_name(14, b"x/"), field(12, 2, "sum", name_sums(b"x/")[0])], damaged(11, 2, 12),
     "with its right checksum"),
    ("byte before inode", "TREE", [row(11, 3, 17, b"/")], damaged(11, 1, 11), "tested before the inode"),
    # 12 Dots
    ("`.` names another", "EMPTY", [field(10, 0, "inode", 2)], damaged(12, 1, 10), "`.` names its directory"),
    ("root's `..` names another", "EMPTY", [field(10, 1, "inode", 17)], damaged(12, 1, 10),
     "the root's `..` names the root; no test of the inode comes before"),
    ("`..` names its directory", "TREE", [field(12, 1, "inode", 2)], damaged(12, 2, 12), "d's parent is inode 1"),
    ("a long `.`", "TREE", [*no_row(12, 0), long_name(14, b"."), field(12, 2, "sum", name_sums(b".")[0])], damaged(12, 2, 12),
     "`.` is known by its name; it names inode 4"),
    # 13 DirTwice
    ("a directory twice in one directory", "TREE", [field(11, 3, "inode", 2)], damaged(13, 1, 11), "d and a both name inode 2"),
    ("a directory with the root below it", "TREE", [field(12, 2, "inode", 1)], damaged(13, 2, 12), "the root is listed first"),
    ("a directory below itself", "TREE", [field(12, 2, "inode", 2)], damaged(13, 2, 12), "inode 2 was listed by the root"),
    ("two rows to a new directory", "EMPTY",
     [inode_copied(1, 2), pointer(2, 0, 11), row(10, 2, 2, b"d"), row(10, 3, 2, b"e")], damaged(13, 1, 10),
     "d listed it, e is refused, before inode 2 is walked"),
    # 14 Tail
    ("a byte past a file's size", "TREE", [byte(13, 3, 1)], damaged(14, 3), "a has 3 bytes"),
    ("the last byte of a file's last leaf", "TREE", [byte(13, 511, 1)], damaged(14, 3), "to the end of the leaf"),
    ("a byte past a link's size", "TREE", [byte(15, 1, 1)], damaged(14, 5), "the target has 1 byte"),
    ("bytes past two sizes", "TREE", [byte(15, 1, 1), byte(13, 3, 1)], damaged(14, 3), "the least inode"),
    ("a byte past the Inode tree's size", "PART", [byte(11, 256, 1)], damaged(14, 0), "18 inodes end at byte 256 of leaf 4"),
    ("a byte past a long name", "TREE", [byte(14, 511, 1)], TREE.clean, "no test reads it"),
    # 15 Counts
    ("free blocks too many", "EMPTY", [number(2, "free_blocks", 86)], damaged(15, 0), "86 user blocks, one held"),
    ("free blocks too few", "EMPTY", [number(2, "free_blocks", 84)], damaged(15, 0), "86 user blocks, one held"),
    ("free inodes too few", "EMPTY", [number(2, "free_inodes", 14)], damaged(15, 0), "16 inodes, one reached"),
    ("counts of the other area", "EMPTY", [number(1, "free_blocks", 0)], EMPTY.clean, "the active area's counts alone"),
    ("tail before counts", "TREE", [byte(13, 3, 1), number(2, "free_blocks", 0)], damaged(14, 3), "14 comes before 15"),
]

ORDER_CASES = [
    ("Inode root before Longfile", "EMPTY", [root("inodes", 0, COUNT), root("longfile", "levels", 6)], damaged(2, 0, COUNT),
     "the Inode root is walked first"),
    ("Longfile before Bitmap", "EMPTY",
     [root("longfile", "size", 512), root("longfile", 0, COUNT), root("bitmap", "levels", 6)], damaged(2, 0, COUNT),
     "the Longfile is walked second"),
    ("list and not depth", "TREE", [inode(4, "levels", 6), inode(6, "levels", 7)], damaged(1, 6),
     "the list is 1, 2, 3, 5, 6, 4: inode 4 is put there by d, after the root's rows"),
    ("all rows before the next inode", "TREE", [inode(2, "levels", 6), field(11, 4, "inode", 17)], damaged(4, 1, 11),
     "the root's records are taken before inode 2"),
    ("the tree before the layout", "TREE", [bit(95, 1), field(12, 2, "sum", 0)], damaged(9, 2, 12), "the bitmap comes later"),
    ("the layout before the counts", "EMPTY", [number(2, "free_blocks", 0), bit(95, 1)], foreign(3, 95), "counts come last"),
    ("reason 3 before 4", "EMPTY", [inode(1, "size", 0)], foreign(3, 10), "no node meets block 10"),
    ("reason 4 before 5", "TREE", [inode(4, "levels", 1), row(12, 0, 1, b".."), row(12, 1, 2, b".")], foreign(4, 4), "in order"),
]

REASON_CASES = [
    # 1
    ("device cut behind the second superblock", "EMPTY", [length(61952)], foreign(1, 0),
     "both superblocks fit; a device of 61,440 whole bytes has 88 blocks"),
    ("device with room for more blocks", "EMPTY", [length(69632)], foreign(1, 0), "a device of 69,632 bytes has 104 blocks"),
    ("another num_blocks", "EMPTY", [number(1, "num_blocks", 95)], foreign(1, 0),
     "the second area is looked for at 60,928 and isn't there, so the first is active"),
    ("15 inodes", "EMPTY", [number(1, "num_inodes", 15), number(2, "num_inodes", 15)], foreign(1, 0), "16 inodes at least"),
    ("too many inodes for two halves", "EMPTY", [number(1, "num_inodes", 149), number(2, "num_inodes", 149)], foreign(1, 0),
     "each half would have 1 + 38 + 1 blocks, and with 17 more there would be 97"),
    ("inodes for two halves", "EMPTY", [number(1, "num_inodes", 148), number(2, "num_inodes", 148)], foreign(2, 0),
     "each half would have 1 + 37 + 1 blocks, which fit; the Inode root node isn't theirs"),
    ("version 2", "EMPTY", [number(2, "version1", 2)], foreign(1, 0), "version1 is 1"),
    ("fourth root with a size", "EMPTY", [root("fourth", "size", 1)], foreign(1, 0), "it is empty"),
    ("fourth root with a pointer", "EMPTY", [root("fourth", 15, 20)], foreign(1, 0), "all its pointers are absent"),
    ("fourth root with levels", "EMPTY", [root("fourth", "levels", 3)], EMPTY.clean, "no test reads its levels"),
    ("numbers that no test reads", "EMPTY",
     [number(2, "flags", 1), number(2, "version2", 1), number(2, "allocgroup", 1), super_byte(2, 32, 1), super_byte(2, 511, 1),
      super_byte(2, 72 + 73, 1)], EMPTY.clean, "flags, version2, volume id, allocgroup, spare bytes, a root node's mode"),
    # 2
    ("a directory in the other half", "EMPTY", [pointer(1, 0, 2)], foreign(2, 0), "block 2 is below 10"),
    ("the Longfile in the other half", "EMPTY", [root("longfile", "size", 512), root("longfile", 0, 4)], foreign(2, 0),
     "block 4 is below 10"),
    ("the roots of the other half", "EMPTY",
     [root("inodes", index, index + 1) for index in range(4)] + [root("bitmap", 0, 0)], foreign(2, 0),
     "area 2 has the second half"),
    ("an Inode root pointer past the size", "EMPTY", [root("inodes", 4, 20)], foreign(2, 0), "all 16 pointers count"),
    ("a smaller Inode tree", "EMPTY", [root("inodes", "size", 1920)], foreign(2, 0), "its size is 16 * 128"),
    ("a larger bitmap", "EMPTY", [root("bitmap", "size", 13)], foreign(2, 0), "its size is 12"),
    ("more inodes than the Inode tree has", "EMPTY", [number(1, "num_inodes", 20), number(2, "num_inodes", 20)], foreign(2, 0),
     "the layout for 20 inodes has a tree of 2,560 bytes"),
    ("another leaf in the active half's pointer block", "POINTERS", [word(43, 0, 1)], foreign(2, 0),
     "block 1 has the same inodes, and stands in the other half"),
    ("a word past the size in the active half's pointer block", "POINTERS", [word(43, 20, 50)], foreign(2, 0),
     "unused words are absent"),
    ("a word in the other half's pointer block", "POINTERS", [word(21, 3, 5)], foreign(2, 0), "word 3 is block 4"),
    ("a word past the size in the other half's pointer block", "POINTERS", [word(21, 127, 0)], foreign(2, 0),
     "unused words are absent"),
    ("a leaf of the other half", "POINTERS", [byte(20, 0, 1)], POINTERS.clean, "no test reads the other half's leaves"),
    # 3
    ("bits of three blocks missing", "EMPTY", [byte(5, 1, 0xE0)], foreign(3, 8), "bits 8, 9 and 10 are missing"),
    ("the bit of the other half missing", "EMPTY", [bit(0, 0)], foreign(3, 0), "both halves have bits 1"),
    ("the root directory's bit missing", "EMPTY", [bit(10, 0)], foreign(3, 10), "the root directory meets block 10"),
    ("a pointer block's bit missing", "TREE", [bit(18, 0)], foreign(3, 18), "p meets block 18 as its pointer block"),
    ("a long name's bit missing", "TREE", [bit(14, 0)], foreign(3, 14), "the Longfile meets block 14"),
    ("a free block's bit set", "EMPTY", [bit(95, 1)], foreign(3, 95), "no node meets the last block"),
    ("the first bit past the blocks", "EMPTY", [bit(96, 0)], foreign(3, 96), "bits past the last block are 1"),
    ("the last bit of the leaf", "EMPTY", [bit(4095, 0)], foreign(3, 4095), "to the end of the last leaf"),
    ("a deep node of nothing", "EMPTY", [inode(1, "size", 2**48), inode(1, "levels", 5), *no_pointers(1)], foreign(3, 10),
     "a hole is passed by its pointer; no node meets block 10"),
    # 4
    ("a pointer past the size", "EMPTY", [pointer(1, 1, 20)], foreign(4, 1), "it isn't absent"),
    ("levels above the least", "TREE", [inode(4, "levels", 1)], foreign(4, 4), "size 0 has no level"),
    ("a Longfile's levels above the least", "EMPTY", [root("longfile", "levels", 1)], foreign(4, 0), "0 is the Longfile"),
    ("a Longfile's pointer past the size", "EMPTY", [root("longfile", 0, 20)], foreign(4, 0), "0 is the Longfile"),
    ("a word past the size", "TREE", [word(19, 2, 30)], foreign(4, 6), "p has leaves 0 to 129"),
    ("a word of level 2 past the size", "TREE", [word(24, 17, 30)], foreign(4, 7), "it would lead to leaf 2176 and on"),
    ("a word in a hole below the size", "TREE", [word(18, 17, 30)], foreign(3, 30), "p meets block 30 as leaf 17"),
    ("a leaf more", "TREE", [word(18, 17, 30), bit(30, 1), number(2, "free_blocks", 71)],
     "clean area 2 serial 2 free blocks 71 free inodes 9", "leaf 17 is a hole no more"),
    ("a pointer block without leaves", "TREE", [word(19, 1, ABSENT), bit(17, 0)], foreign(4, 6),
     "p's second pointer block has no present leaf"),
    ("a pointer block of level 2 without leaves", "TREE",
     [word(24, 0, ABSENT), word(24, 16, ABSENT), *(bit(block, 0) for block in (20, 21, 22, 23))], foreign(4, 7),
     "q's pointer block has no pointer"),
    ("a directory of no bytes", "EMPTY", [inode(1, "size", 0), bit(10, 0), pointer(1, 0, ABSENT)], foreign(4, 1),
     "a directory's size isn't 0"),
    ("a directory of a part of a leaf", "EMPTY", [inode(1, "size", 480)], foreign(4, 1), "no multiple of 512"),
    ("a directory with a hole", "EMPTY", [inode(1, "size", 1024)], foreign(4, 1), "leaf 1 is a hole"),
    ("two foreign nodes", "TREE", [inode(4, "levels", 1), word(19, 2, 30)], foreign(4, 4), "the least inode"),
    # 5
    ("dots swapped", "EMPTY", [row(10, 0, 1, b".."), row(10, 1, 1, b".")], foreign(5, 1), "`.` is the first record"),
    ("dots swapped below", "TREE", [row(12, 0, 1, b".."), row(12, 1, 2, b".")], foreign(5, 2), "in d"),
    ("no `..`", "EMPTY", no_row(10, 1), foreign(5, 1), "the second record is unused"),
    ("dots one record later", "EMPTY", [*no_row(10, 0), row(10, 2, 1, b".")], foreign(5, 1), "the first record is unused"),
    ("a long `.` first", "TREE",
     [long_row(12, 0, 2, 0, name_sums(b".")[0]), long_name(14, b"."), *no_row(12, 2)], foreign(5, 2),
     "it names d, and is no short record"),
    # 6
    ("a directory's status 3", "EMPTY", [inode(1, "status", 3)], foreign(6, 1), "1 for directories"),
    ("a file's status 2", "TREE", [inode(3, "status", 2)], foreign(6, 3), "3 otherwise"),
    ("an ext_mode", "EMPTY", [inode(1, "ext_mode", 1)], foreign(6, 1), "it is 0"),
    ("the first unnamed byte", "EMPTY", [inode_byte(1, 102, 1)], foreign(6, 1), "it is 0"),
    ("the last unnamed byte", "EMPTY", [inode_byte(1, 127, 1)], foreign(6, 1), "it is 0"),
    ("a special's block", "TREE", [inode(3, "mode", FIFO_MODE)], foreign(3, 13), "a special's node isn't walked"),
    ("a byte in an inode not reached", "EMPTY", [inode_byte(16, 127, 1)], foreign(6, 16), "128 bytes 0"),
    ("an inode without a row", "TREE", [*no_row(11, 3), bit(13, 0)], foreign(6, 3), "a is reached no more"),
    ("the last inode's last byte", "PART", [byte(11, 255, 1)], foreign(6, 18), "inode 18 ends at byte 256 of leaf 4"),
    # 7
    ("a Longfile of a part of a leaf", "TREE", [root("longfile", "size", 511)], foreign(7, 0), "no multiple of 512"),
    ("a long name without a record", "TREE", [*no_row(12, 2), *inode_cleared(4)], foreign(7, 0), "leaf 0 is named by none"),
    ("a long name with two records", "TREE", [long_row(11, 8, 4, 0, name_sums(NAME)[0])], foreign(7, 0),
     "inode 4 has two rows, which is fine, over one leaf, which isn't"),
    ("a leaf of the Longfile too many", "TREE", [root("longfile", "size", 1024), root("longfile", 1, 30), bit(30, 1)],
     foreign(7, 1), "leaf 1 is named by none; what it holds isn't read"),
    ("a hole in the Longfile", "TREE", [root("longfile", "size", 1024)], TREE.clean, "an absent leaf needs no record"),
    ("a long record of a short name", "TREE", [long_name(14, b"x"), field(12, 2, "sum", SUM_OF_X)], TREE.clean,
     "no reason forbids it"),
    ("bytes of a record that no test reads", "TREE", [byte(12, 64 + 5, 1), byte(12, 64 + 31, 1), byte(11, 64 + 31, 1)],
     TREE.clean, "behind a short name, and around a long record's fields"),
]

ORDERS = ("little", "big")
CASES = [Case(*fields) for fields in AREA_CASES + CODE_CASES + ORDER_CASES + REASON_CASES]


def flat(changes):
    for change in changes:
        yield from flat(change) if isinstance(change, list) else [change]


def images(order):
    """Each case with its volume, its image and its line, in one byte order."""
    bases = {name: base_image(name, order) for name in BASES}
    for case in CASES:
        edited = Edited(BASES[case.base], bases[case.base], order)
        for change in flat(case.changes):
            change(edited)
        edited.seal(bases[case.base])
        wanted = case.wanted if isinstance(case.wanted, str) else case.wanted[ORDERS.index(order)]
        yield case, bases[case.base], bytes(edited.image), wanted


def status_of(line):
    return 0 if line.startswith(("clean", "foreign")) else 2


# The cases as bytes


def differences(old, new):
    """Places and bytes, runs that lie within 4 bytes joined."""
    runs = []
    for at in (at for at, pair in enumerate(zip(old, new)) if pair[0] != pair[1]):
        if runs and at - runs[-1][1] <= 4:
            runs[-1][1] = at + 1
        else:
            runs.append([at, at + 1])
    return [(start, new[start:end]) for start, end in runs]


def literal(runs):
    return ", ".join(f"({at:#x}, &[{', '.join(f'{value:#04x}' for value in data)}])" for at, data in runs)


def print_bytes():
    """For each byte order the tree's volume as changes in the maker's, then each case as changes in its volume."""
    for order in ORDERS:
        print(f"## {order.capitalize()} order\n\n```")
        empty = base_image("EMPTY", order)
        print(f"TREE = EMPTY with &[{literal(differences(empty, base_image('TREE', order)))}]\n")
        for case, base, image, wanted in images(order):
            cut = f"length {len(image)} " if len(image) != len(base) else ""
            print(f"// {case.why}")
            print(f'("{case.name}", {case.base}, {cut}&[{literal(differences(base, image))}], "{wanted}"),')
        print("```\n")


def main(words):
    if words == ["--bytes"]:
        print_bytes()
        return 0
    failed = 0
    for order in ORDERS:
        for case, _, image, wanted in images(order):
            given = verify.verdict(image)
            if given != (wanted, status_of(wanted)):
                failed += 1
                print(f"{case.name}, {order}: wanted {wanted}, given {given[0]} status {given[1]}")
    print(f"{2 * len(CASES)} cases, {failed} failed")
    return 1 if failed else 0


if __name__ == "__main__":
    sys.exit(main(sys.argv[1:]))
