#!/usr/bin/env python3
"""Makes one of a fixed list of changes in a sound volume, chosen by a number: the same number makes the same change.

    python3 bench/mutate.py VOLUME SEED OUT         writes the changed image and says what was changed

The kind is number SEED modulo the number of kinds in KINDS, which are told at their functions below; what a kind
changes, and into what, is drawn from the seed. Values are mostly near a limit of some test: the number of blocks, a
block that is held already, a size at a leaf's end. Superblocks that are changed get their right checksum again, but
for one kind.
"""
import random
import sys

sys.dont_write_bytecode = True  # no folders of compiled modules beside the sources
import verify
from verify import ABSENT, BLOCKS_BEGIN, FIRST_AREA, INODE_SIZE, RECORD_SIZE, SUPER_SIZE

ROOTS = {"inode tree": (72, 144), "bitmap": (152, 224), "longfile": (232, 304), "fourth": (312, 384)}
SUPER_NUMBERS = {  # place and bytes of each
    "serial": (8, 8),
    "flags": (24, 4),
    "version1": (28, 2),
    "version2": (30, 2),
    "blocksize": (48, 4),
    "num_inodes": (52, 4),
    "free_inodes": (56, 4),
    "num_blocks": (60, 4),
    "free_blocks": (64, 4),
}


class Places:
    """Where a sound volume has what can be changed."""

    def __init__(self, image):
        line, _ = verify.verdict(image)
        if not line.startswith("clean"):
            raise ValueError(f"the volume isn't sound: {line}")
        first, second = verify.both_areas(image)
        self.area, self.found = verify.pick(first, second)
        self.walk = verify.Walk(image, self.found)
        self.blocks = self.walk.blocks
        layout = verify.Layout(len(image), self.found.blocksize, self.found.num_inodes)
        self.first_user = layout.first_user
        self.supers = [FIRST_AREA, self.found.second_place()]
        self.active_super = self.supers[self.area - 1]
        self.bitmap = layout.bitmaps[self.area - 1]
        self.table = layout.tables[self.area - 1]
        self.system_words = [block for tree in layout.bitmaps + layout.tables for block, _ in tree.pointer_blocks()]
        self.live = sorted(self.walk.kinds)
        self.idle = [n for n in range(1, self.found.num_inodes + 1) if n not in self.walk.kinds]
        self.directories = sorted(self.walk.rows)
        nodes = [self.walk.longfile, *(node for node in self.walk.nodes.values() if node)]
        self.held = sorted(block for node in nodes for block in node.blocks())
        self.pointer_blocks = sorted(block for node in nodes for level, _, block in node.visits if level)
        self.long_blocks = list(self.walk.long_leaves.values())
        self.tails = sorted(self.find_tails())

    def find_tails(self):
        """Place and length of what lies past a size in a last leaf."""
        for node in [self.walk.inodes, *(node for node in self.walk.nodes.values() if node)]:
            leaf, used = divmod(node.root.size, self.blocks.size)
            block = node.leaves().get(leaf)
            if used and block is not None:
                yield self.block(block) + used, self.blocks.size - used

    def block(self, number):
        return BLOCKS_BEGIN + number * self.blocks.size

    def inode(self, number):
        return self.block(self.table.first) + (number - 1) * INODE_SIZE

    def rows(self):
        """Directory and row of every record in use."""
        return [(directory, row) for directory in self.directories for row in self.walk.rows[directory]]

    def record(self, row):
        per_leaf = self.blocks.size // RECORD_SIZE
        return self.block(row.block) + row.place % per_leaf * RECORD_SIZE

    def metadata(self):
        """Blocks whose bytes some test reads."""
        leaves = [block for n in self.directories for block in self.walk.nodes[n].leaves().values()]
        system = range(self.bitmap.first, self.table.end)
        return sorted({*leaves, *self.pointer_blocks, *self.long_blocks, *self.system_words, *system})


class Change:
    """An image that is changed in one way, from one seed."""

    def __init__(self, image, places, seed):
        self.image = bytearray(image)
        self.places = places
        self.order = places.found.order
        self.random = random.Random(seed)
        self.said = []

    def put(self, what, at, width, value):
        value %= 1 << 8 * width
        self.put_bytes(f"{what} = {value}", at, value.to_bytes(width, self.order))

    def put_bytes(self, what, at, data):
        self.image[at : at + len(data)] = data
        self.said.append(f"{what}, {len(data)} bytes at {at:#x}")

    def flip(self, what, at):
        bit = 1 << self.random.randrange(8)
        self.put_bytes(f"{what}, bits {bit:#04x} flipped", at, bytes([self.image[at] ^ bit]))

    def seal(self, place):
        """Makes the checksum of a superblock right."""
        total = verify.checksum(bytes(self.image[place + 8 : place + SUPER_SIZE]))
        self.image[place + 4 : place + 8] = total.to_bytes(4, self.order)

    def some(self, values):
        return self.random.choice(list(values))

    # Values that are near a limit

    def any_block(self):
        count, held = self.places.blocks.count, self.places.held
        near = [0, 1, self.places.first_user - 1, self.places.first_user, count - 1, count, count + 1]
        return self.some(near + [ABSENT, ABSENT - 1, self.some(held), self.some(held), self.random.randrange(count)])

    def any_size(self):
        size = self.places.blocks.size
        per_block = size // 4
        reach = [16 * per_block**levels * size for levels in range(6)]
        whole = self.places.blocks.count * size
        limits = [0, 32, 64, size, 2 * size, 1023, whole, *reach, 2**48]
        return self.some([self.some(limits) + self.some([-1, 0, 0, 1]), self.random.randrange(3 * size), 2**64 - 1])

    def any_levels(self):
        return self.some([0, 1, 1, 2, 3, 4, 5, 5, 6, 255])

    def any_inode(self):
        most = self.places.found.num_inodes
        near = [0, 1, 2, most, most + 1, 2**32 - 1]
        return self.some(near + [self.some(self.places.live), self.random.randrange(1, most + 1)])

    def any_mode(self):
        return self.some(range(16)) << 12 | self.random.randrange(4096)


# The kinds


def super_number(change):
    """A number of the active superblock, or of both."""
    name = change.some(SUPER_NUMBERS)
    at, width = SUPER_NUMBERS[name]
    places = change.places
    old = verify.read_number(change.image, change.order, places.active_super + at, width)
    value = change.some([0, 1, 2, 15, 16, 17, 512, 1024, 4096, 2**20, 2**20 + 1, old - 1, old + 1, 2 * old, 2**64 - 1])
    for place in change.some([[places.active_super], places.supers]):
        change.put(f"superblock at {place:#x}: {name}", place + at, width, value)
        change.seal(place)


def super_root(change):
    """Size, levels or a pointer of a root node in the active superblock."""
    name = change.some(ROOTS)
    size_at, levels_at = ROOTS[name]
    place = change.places.active_super
    for field in change.some([["size"], ["levels"], ["pointer"], ["pointer"], ["size", "levels"], ["size", "pointer"]]):
        if field == "size":
            change.put(f"{name}: size", place + size_at, 8, change.any_size())
        elif field == "levels":
            change.put(f"{name}: levels", place + levels_at, 1, change.any_levels())
        else:
            index = change.random.randrange(16) // change.some([1, 8])
            change.put(f"{name}: pointer {index}", place + levels_at - 64 + 4 * index, 4, change.any_block())
    change.seal(place)


def super_byte(change):
    """Any byte of the active superblock from the serial on."""
    place = change.places.active_super
    change.flip("superblock", place + change.random.randrange(8, SUPER_SIZE))
    change.seal(place)


def unsealed_super(change):
    """Any byte of either superblock, or of both; the checksum stays as it was."""
    for place in change.some([change.places.supers[:1], change.places.supers[1:], change.places.supers]):
        change.flip(f"superblock at {place:#x}, unsealed", place + change.random.randrange(SUPER_SIZE))


def other_area(change):
    """The serials, so that the other area's superblock and half count, or neither area alone."""
    for place in change.places.supers:
        change.put(f"superblock at {place:#x}: serial", place + 8, 8, change.some([0, 1, 2, 3, 2**64 - 1]))
        change.seal(place)


def inode_number(change):
    """A field of a live inode."""
    number = change.some(change.places.live)
    place = change.places.inode(number)
    name, at, width, value = change.some(
        [
            ("size", 0, 8, change.any_size()),
            ("size", 0, 8, change.any_size()),
            ("mode", 32, 2, change.any_mode()),
            ("ext_mode", 34, 2, change.some([0, 1, 256, 0xFFFF])),
            ("levels", 100, 1, change.any_levels()),
            ("status", 101, 1, change.some([0, 1, 2, 3, 255])),
            ("uid", 8, 4, change.random.randrange(2**32)),
        ]
    )
    change.put(f"inode {number}: {name}", place + at, width, value)


def inode_pointer(change):
    """A pointer of a live inode, one of the first ones more often."""
    number = change.some(change.places.live)
    index = change.random.randrange(16) // change.some([1, 4, 16])
    place = change.places.inode(number) + 36 + 4 * index
    change.put(f"inode {number}: pointer {index}", place, 4, change.any_block())


def inode_shape(change):
    """Size, levels and pointers of a live inode together, so that other blocks are read as pointer blocks."""
    number = change.some(change.places.live)
    place = change.places.inode(number)
    change.put(f"inode {number}: size", place, 8, change.any_size())
    change.put(f"inode {number}: levels", place + 100, 1, change.any_levels())
    for index in range(change.random.randrange(4)):
        change.put(f"inode {number}: pointer {index}", place + 36 + 4 * index, 4, change.any_block())


def inode_byte(change):
    """Any byte of a live inode, its unnamed ones more often."""
    number = change.some(change.places.live)
    at = change.some([change.random.randrange(INODE_SIZE), change.random.randrange(102, INODE_SIZE)])
    change.flip(f"inode {number}", change.places.inode(number) + at)


def idle_inode(change):
    """An inode that isn't live: a byte, or a copy of a live one, named by nobody or by a row that is changed to it."""
    if not change.places.idle:
        return inode_byte(change)
    number = change.some([change.some(change.places.idle), change.places.idle[0]])
    place = change.places.inode(number)
    if change.random.randrange(2):
        return change.flip(f"inode {number}, not live", place + change.random.randrange(INODE_SIZE))
    source = change.places.inode(change.some(change.places.live))
    change.put_bytes(f"inode {number}, not live, copied", place, change.image[source : source + INODE_SIZE])
    if change.random.randrange(2):
        directory, row = change.some(change.places.rows())
        change.put(f"directory {directory}, record {row.place}: inode", change.places.record(row), 4, number)


def record_number(change):
    """The inode, the length, the long name's number or the checksum of a record in use."""
    directory, row = change.some(change.places.rows())
    name, at, width, value = change.some(
        [
            ("inode", 0, 4, change.any_inode()),
            ("inode", 0, 4, change.any_inode()),
            ("length", 4, 1, change.some([0, 1, 2, 27, 28, 29, 254, 255])),
            ("number", 8, 4, change.some([0, 1, 2, len(change.places.long_blocks), 2**32 - 1])),
            ("sum", 12, 4, change.random.randrange(2**32)),
        ]
    )
    change.put(f"directory {directory}, record {row.place}: {name}", change.places.record(row) + at, width, value)


def record_name(change):
    """A name byte of a record in use, or its length and its first bytes."""
    directory, row = change.some(change.places.rows())
    what, place = f"directory {directory}, record {row.place}: name", change.places.record(row)
    if change.random.randrange(2):
        at = change.random.randrange(min(len(row.name), 27))
        return change.put_bytes(what, place + 5 + at, change.some([b"\0", b"/", b".", b"a", b"\xff"]))
    other = change.some(change.places.rows())[1].name[:27]
    name = change.some([b".", b"..", b"...", b"a/b", b"a\0b", other, b"n" * 27])
    change.put_bytes(what, place + 4, bytes([len(name)]) + name)


def record_copied(change):
    """A record over another one: a name twice, a directory twice, a row too many or one too few."""
    rows = change.places.rows()
    directory, row = change.some(rows)
    source = change.places.record(change.some(rows)[1])
    end = change.places.block(row.block) + change.places.blocks.size
    place = change.places.record(row)
    place = change.some([place, min(place + RECORD_SIZE, end - RECORD_SIZE), end - RECORD_SIZE])
    copied = change.image[source : source + RECORD_SIZE]
    data = change.some([bytes(RECORD_SIZE), copied, copied])
    change.put_bytes(f"directory {directory}: a record", place, data)


def records_swapped(change):
    """Two records of one directory."""
    directory = change.some(change.places.directories)
    rows = change.places.walk.rows[directory]
    one, two = (change.places.record(row) for row in (change.some(rows), change.some(rows[:3])))
    first = bytes(change.image[one : one + RECORD_SIZE])
    change.put_bytes(f"directory {directory}: swapped", one, change.image[two : two + RECORD_SIZE])
    change.put_bytes(f"directory {directory}: swapped", two, first)


def bitmap_bits(change):
    """A bit or a byte of the active bitmap, also past the last block."""
    bitmap = change.places.bitmap
    end = bitmap.leaves * change.places.blocks.size
    at = change.some([change.random.randrange(bitmap.size), change.random.randrange(end)])
    place = change.places.block(bitmap.first) + at
    if change.random.randrange(2):
        return change.flip("bitmap", place)
    change.put_bytes("bitmap", place, bytes([change.random.randrange(256)]))


def long_leaf(change):
    """The length of a long name, a byte of it, or its checksum over signed bytes in a row that names it."""
    if not change.places.long_blocks:
        return record_number(change)
    directory, row = change.some((d, row) for d, row in change.places.rows() if not row.is_short())
    place = change.places.block(change.places.walk.long_leaves[row.number])
    choice = change.random.randrange(4)
    if choice == 0:
        change.put(f"long name {row.number}: length", place, 2, change.some([0, 1, 2, 509, 510, 511, 0xFFFF]))
    elif choice == 1:
        at = change.random.randrange(len(row.name))
        change.put_bytes(f"long name {row.number}", place + 2 + at, change.some([b"\0", b"/", b"a", b"\xe4"]))
    elif choice == 2:
        sum_place = change.places.record(row) + 12
        change.put(f"record of long name {row.number}: signed sum", sum_place, 4, verify.name_sums(row.name)[1])
    else:
        name = change.some([b".", b"..", b"a", b"x/y", row.name + b"x", change.some(change.places.rows())[1].name])
        what = f"long name {row.number}, with its sum in its row"
        change.put_bytes(what, place, len(name).to_bytes(2, change.order) + name)
        change.put(what, change.places.record(row) + 12, 4, verify.name_sums(name)[0])


def pointer_word(change):
    """A word of a pointer block outside the halves."""
    if not change.places.pointer_blocks:
        return inode_pointer(change)
    block = change.some(change.places.pointer_blocks)
    word = change.random.randrange(change.places.blocks.per_block) // change.some([1, 8, 128])
    change.put(f"pointer block {block}: word {word}", change.places.block(block) + 4 * word, 4, change.any_block())


def system_word(change):
    """A word of a pointer block of either half."""
    if not change.places.system_words:
        return super_root(change)
    block = change.some(change.places.system_words)
    word = change.random.randrange(change.places.blocks.per_block)
    change.put(f"pointer block {block}: word {word}", change.places.block(block) + 4 * word, 4, change.any_block())


def tail_byte(change):
    """A byte past the size in a last leaf."""
    if not change.places.tails:
        return inode_number(change)
    place, count = change.some(change.places.tails)
    change.flip("past a size", place + change.random.randrange(count))


def node_moved(change):
    """A live inode's first leaf copied to a free block, with the bits of both as they were, changed or made right."""
    nodes = change.places.walk.nodes
    number = change.some(n for n in change.places.live if nodes[n] and nodes[n].root.levels == 0)
    leaves = nodes[number].leaves()
    free = [b for b in range(change.places.first_user, change.places.blocks.count) if b not in change.places.held]
    if not leaves or not free:
        return inode_pointer(change)
    index, old = next(iter(leaves.items()))
    new, size = change.some(free), change.places.blocks.size
    place = change.places.block(old)
    change.put_bytes(f"block {old} copied to {new}", change.places.block(new), change.image[place : place + size])
    change.put(f"inode {number}: pointer {index}", change.places.inode(number) + 36 + 4 * index, 4, new)
    for block in change.some([[], [old], [new], [old, new], [old, new]]):
        at = change.places.block(change.places.bitmap.first) + block // 8
        change.put_bytes(f"bit {block}", at, bytes([change.image[at] ^ 1 << block % 8]))


def random_block(change):
    """A whole block of metadata, or the front of it."""
    block = change.some(change.places.metadata())
    count = change.some([16, 128, change.places.blocks.size])
    change.put_bytes(f"block {block}, random", change.places.block(block), change.random.randbytes(count))


def random_bytes(change):
    """A few bytes of metadata."""
    for _ in range(change.some([2, 3, 8, 30])):
        block = change.some(change.places.metadata())
        at = change.places.block(block) + change.random.randrange(change.places.blocks.size)
        change.put_bytes("random", at, change.random.randbytes(1))


def random_behind(change):
    """All blocks, behind superblocks that are as they were."""
    start, end = BLOCKS_BEGIN, change.places.found.second_place()
    data = change.some([change.random.randbytes(end - start), bytes(end - start), b"\xff" * (end - start)])
    change.put_bytes("all blocks", start, data)


def length(change):
    """The device's length."""
    second = change.places.found.second_place()
    old = len(change.image)
    cut = [0, 511, 4096, FIRST_AREA + 511, FIRST_AREA + 512, second, second + 511, second + 512]
    new = change.some(cut + [old - 1, old + 1, old + 4096])
    change.said.append(f"length {new}")
    change.image = change.image[:new].ljust(new, b"\0")


def several(change):
    """Two or three of the other kinds."""
    for _ in range(change.some([2, 2, 3])):
        change.some(KINDS[:-2])(change)


KINDS = [
    super_number,
    super_root,
    super_byte,
    unsealed_super,
    other_area,
    inode_number,
    inode_pointer,
    inode_shape,
    inode_byte,
    idle_inode,
    record_number,
    record_name,
    record_copied,
    records_swapped,
    bitmap_bits,
    long_leaf,
    pointer_word,
    system_word,
    tail_byte,
    node_moved,
    random_block,
    random_bytes,
    random_behind,
    length,
    several,
]


def mutate(image, places, seed):
    """The changed image and what was changed."""
    change = Change(image, places, seed)
    kind = KINDS[seed % len(KINDS)]
    kind(change)
    return bytes(change.image), f"{kind.__name__}: " + "; ".join(change.said)


def main(words):
    if len(words) != 3:
        sys.exit("usage: mutate.py VOLUME SEED OUT")
    with open(words[0], "rb") as file:
        image = file.read()
    changed, said = mutate(image, Places(image), int(words[1]))
    with open(words[2], "wb") as file:
        file.write(changed)
    print(said)


if __name__ == "__main__":
    main(sys.argv[1:])
