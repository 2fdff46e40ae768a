#!/usr/bin/env python3
"""Writes a small volume: 65,536 bytes, 96 blocks of 512 bytes, 16 inodes, little byte order, an empty root directory.

It is written from the format's tables alone, so that the tools can be tried on an image that is not their own.

    python3 examples/small.py examples/small.img
"""
import struct
import sys

LENGTH = 65536
BLOCKSIZE = 512
BOOT = 0x2000  # the boot area, before the first superblock area
AREA = 0x1000  # a superblock area, of which the superblock is the first 512 bytes
BLOCKS = (LENGTH - BOOT - 2 * AREA) // BLOCKSIZE
INODES = 16
MOMENT = 1000  # seconds since 1970
ABSENT = 0xFFFFFFFF  # a pointer to no block

BITMAP_LEAVES = 1  # 96 bits
INODE_LEAVES = 4  # 16 inodes of 128 bytes
HALF = BITMAP_LEAVES + INODE_LEAVES  # the blocks of one half
ROOT = 2 * HALF  # the root directory's block, the first after both halves
FREE = BLOCKS - 2 * HALF - 1


def checksum(message):
    """The remainder of the message's polynomial divided by 0x04C11DB7, highest bit first."""
    remainder = 0
    for byte in message:
        remainder ^= byte << 24
        for _ in range(8):
            remainder <<= 1
            if remainder >> 32:
                remainder ^= 0x104C11DB7
    return remainder


def pointers(blocks):
    """16 pointers, the first ones to these blocks."""
    return struct.pack("<16I", *blocks, *[ABSENT] * (16 - len(blocks)))


def root_node(size, blocks):
    """Size, pointers, levels 0, mode 0, and 6 bytes 0."""
    return struct.pack("<Q", size) + pointers(blocks) + bytes(8)


def superblock(serial, first):
    """The superblock whose half begins at block `first`."""
    bitmap = range(first, first + BITMAP_LEAVES)
    inodes = range(first + BITMAP_LEAVES, first + HALF)
    # from byte 8 on: serial, ctime, atime, flags, versions 1 and 0
    body = struct.pack("<QIIIHH", serial, MOMENT, MOMENT, 0, 1, 0)
    body += bytes(16)  # volume id
    # block size, inodes and free ones (the root is one), blocks and free ones, allocation group
    body += struct.pack("<6I", BLOCKSIZE, INODES, INODES - 1, BLOCKS, FREE, 0)
    body += root_node(INODES * 128, inodes)  # Inode
    body += root_node(BLOCKS // 8, bitmap)  # Bitmap
    body += root_node(0, [])  # Longfile
    body += root_node(0, [])  # the fourth
    body = body.ljust(504, b"\0")
    return struct.pack("<II", 0x68191122, checksum(body)) + body


def half():
    """A half's five blocks, which are the same in both: the bitmap's leaf, then the inodes' four."""
    # 1 for the blocks of both halves and the root directory's, and for the bits past the last block
    used = (1 << (ROOT + 1)) - 1
    bitmap = used.to_bytes(BLOCKS // 8, "little").ljust(BLOCKSIZE, b"\xff")
    # inode 1: size, uid and gid 0, ftime, mtime, atime and ctime, a directory of mode 0755, ext_mode 0
    root = struct.pack("<QII4IHH", BLOCKSIZE, 0, 0, *[MOMENT] * 4, 0x41ED, 0)
    root += pointers([ROOT])
    root += bytes([0, 1])  # levels 0, status 1
    return bitmap + root.ljust(INODE_LEAVES * BLOCKSIZE, b"\0")


def directory():
    """The root directory's block: `.` and `..`, both inode 1, and unused records."""
    records = struct.pack("<IB27s", 1, 1, b".") + struct.pack("<IB27s", 1, 2, b"..")
    return records.ljust(BLOCKSIZE, b"\0")


def image():
    blocks = half() + half() + directory()
    return b"".join(
        [
            bytes(BOOT),
            superblock(1, 0).ljust(AREA, b"\0"),
            blocks.ljust(BLOCKS * BLOCKSIZE, b"\0"),
            superblock(2, HALF).ljust(AREA, b"\0"),
        ]
    )


if __name__ == "__main__":
    if len(sys.argv) != 2:
        sys.exit("usage: small.py IMAGE")
    with open(sys.argv[1], "wb") as file:
        file.write(image())
