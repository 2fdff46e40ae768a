#!/usr/bin/env python3
"""Worked rows of the shell, with what has to be put, held against bench/machine.py.

    python3 bench/machine_rows.py

Every wanted line is that of the project's worked examples or was worked out by hand from the rules; none is taken from
a program. The small volume has 65,536 bytes, blocks of 512 bytes and 16 inodes. Where no moments are given, each is
1000. In a wanted line `…` stands for anything. At a script's end all holds are dropped and a last snapshot is taken
where something has changed.
"""
import os
import re
import sys
from typing import NamedTuple

sys.dont_write_bytecode = True  # no folders of compiled modules beside the sources
sys.path.insert(0, os.path.dirname(os.path.abspath(__file__)))
from machine import LAST_SERIAL, SCRIPT_LIMIT, Draw, File, Refused, Runs, Volume
from machine import clipped, parse, positions, run, status, touched, workload
from texts import LONGEST_LINE

SMALL = Volume.of_size(65536)
MIDDLE = Volume.of_size(16 * 2**20)
NEW_FILE = "size 0 mode 0644 uid 0 gid 0 links 1"
AT_1000 = "ftime 1000 mtime 1000 atime 1000 ctime 1000"


class Row(NamedTuple):
    """A script and its output, line by line; the options are those of `run`. Bytes are a script as it stands."""

    name: str
    script: str | bytes
    output: str
    volume: Volume = SMALL
    options: dict = {}
    status: int = 0


def letters(names):
    return "\n".join(f"create {name}" for name in names)


# The worked examples

EXAMPLES = [
    Row(
        "a file, a long name and a link on 16 MiB",
        """
        mkdir docs
        create docs/report.txt
        fill docs/report.txt 0 300000 65
        create docs/a-name-of-exactly-forty-bytes-in-all.txt
        symlink report.txt docs/latest
        cat docs/latest 299998 10
        df
        sync
        ls docs
        df
        quit
        """,
        """
        ok
        ok
        ok
        ok
        ok
        ok 2
        AA
        ok blocks 32736 user 30656 free 30060 inodes 4096 free 4091 serial 2
        ok
        snapshot 3
        ok 3
        3 report.txt
        4 a-name-of-exactly-forty-bytes-in-all.txt
        5 latest
        ok blocks 32736 user 30656 free 30061 inodes 4096 free 4091 serial 3
        ok
        """,
        MIDDLE,
    ),
    Row(
        "the reserve stays free, and a hold bars the snapshot that would make room",
        """
        hold
        create a
        fill a 0 34816 65
        fill a 0 34304 65
        df
        """,
        """
        ok
        ok
        error 11 NoSpace need 69 free 84
        ok
        ok blocks 96 user 86 free 16 inodes 16 free 14 serial 2
        snapshot 3
        """,
    ),
    Row(
        "a snapshot makes the room that an operation lacks",
        """
        create a
        fill a 0 34816 65
        """,
        """
        ok
        ok
        snapshot 3
        snapshot 4
        """,
    ),
    Row(
        "a refusal tells the numbers after the snapshot",
        """
        create a
        fill a 0 35328 65
        """,
        """
        ok
        error 11 NoSpace need 70 free 85
        snapshot 3
        """,
    ),
    Row(
        "removing may go into the reserve, and its blocks come back with the next snapshot",
        """
        create a
        fill a 0 34304 65
        sync
        hold
        rm a
        df
        create b
        write b 0 x
        unhold
        write b 0 x
        df
        """,
        """
        ok
        ok
        ok
        snapshot 3
        ok
        ok
        ok blocks 96 user 86 free 16 inodes 16 free 15 serial 3
        ok
        error 11 NoSpace need 1 free 16
        ok
        ok
        snapshot 4
        ok blocks 96 user 86 free 84 inodes 16 free 14 serial 4
        snapshot 5
        """,
    ),
    Row(
        "a byte far away takes a leaf and five pointer blocks",
        """
        create a
        df
        write a 2199023255552 x
        df
        cat a 2199023255551 9
        """,
        r"""
        ok
        ok blocks 96 user 86 free 84 …
        ok
        ok blocks 96 user 86 free 78 …
        ok 2
        \00x
        snapshot 3
        """,
    ),
    Row(
        "no file is greater than 2^48 bytes",
        """
        create a
        write a 281474976710655 x
        write a 281474976710656 x
        truncate a 281474976710657
        """,
        """
        ok
        ok
        error 10 FileTooBig
        error 10 FileTooBig
        snapshot 3
        """,
    ),
    Row(
        "names are short up to 27 bytes, long up to 510, and refused above",
        "\n".join(f"create {'n' * length}\ndf" for length in (27, 28, 510, 511)),
        """
        ok
        ok blocks 96 user 86 free 84 …
        ok
        ok blocks 96 user 86 free 83 …
        ok
        ok blocks 96 user 86 free 82 …
        error 6 NameTooLong
        ok blocks 96 user 86 free 82 …
        snapshot 3
        """,
    ),
    Row(
        "a snapshot whose last sync fails is carried on in the background",
        """
        create a
        sync
        create b
        sync
        """,
        """
        ok
        error 16 Device
        ok
        snapshot 3
        ok
        snapshot 4
        """,
        options={"faults": [8]},  # one leaf, five system leaves, a sync and a superblock come before it
    ),
    Row(
        "a shell that only reads refuses changes, and has nothing to sync",
        """
        ls
        create a
        sync
        """,
        """
        ok 0
        error 13 ReadOnly
        ok
        """,
        options={"read_only": True},
    ),
    Row(
        "each session has its own directory, and no directory moves into itself",
        """
        mkdir d
        mkdir d/e
        create d/e/f
        @1 cd d/e
        mv d/e g
        @1 stat f
        @1 ls ..
        mv d d/x
        @16 df
        rmdir g
        rmdir /
        """,
        f"""
        ok
        ok
        ok
        ok
        ok
        ok file inode 4 {NEW_FILE} {AT_1000}
        ok 2
        2 d
        3 g
        error 14 IntoItself
        error 20 NoSession
        error 5 NotEmpty
        error 15 Reserved
        snapshot 3
        """,
    ),
    Row(
        "the last serial bars each change",
        """
        create a
        sync
        ls
        """,
        """
        error 19 SerialEnd
        ok
        ok 0
        """,
        options={"serial": LAST_SERIAL},
    ),
    Row("an empty script has no output", b"", ""),
    Row("a last line may lack its newline", b"ls", "ok 0"),
    Row(
        "time begins a snapshot, and turns carry it on by four steps each",
        """
        create a
        tick
        df
        df
        df
        """,
        """
        ok
        ok
        ok blocks 96 user 86 free 84 inodes 16 free 14 serial 2
        ok blocks 96 user 86 free 84 inodes 16 free 14 serial 2
        snapshot 3
        ok blocks 96 user 86 free 85 inodes 16 free 14 serial 3
        """,
        options={"moments": [0, 0, 10, 11, 12, 13]},
    ),
    Row(
        "a link that leads to itself, and what is no link or no file",
        """
        symlink loop loop
        cat loop 0 1
        readlink loop
        stat x
        cat / 0 1
        ls loop/x
        readlink /
        """,
        """
        ok
        error 8 LinkLoop
        ok loop
        error 1 NoEntry
        error 3 IsDir
        error 8 LinkLoop
        error 9 WrongKind
        snapshot 3
        """,
    ),
    Row(
        "sixteen inodes, and a directory that has grown for their rows",
        letters("abcdefghijklmnop") + "\ndf",
        "ok\n" * 15
        + """error 12 NoInodes
        ok blocks 96 user 86 free 83 inodes 16 free 0 serial 2
        snapshot 3
        """,
    ),
    Row(
        "a line is bad at the end of its longest beginning of a line",
        """
        mkdri a
        ls  a
        write a 0
        tick x
        """,
        """
        error 21 BadLine 3
        error 21 BadLine 3
        error 21 BadLine 9
        error 21 BadLine 4
        """,
    ),
    Row("a line above 8,192 bytes is bad there", "n" * 8193, "error 21 BadLine 8192"),
    Row(
        "a sync is refused while sessions hold, and after its path",
        """
        hold
        @1 hold
        sync
        fsync nosuch
        unhold
        @1 unhold
        sync
        """,
        """
        ok
        ok
        error 18 Held 2
        error 1 NoEntry
        ok
        ok
        ok
        """,
    ),
    Row("a script may have 16,777,215 bytes", b"\n" * (SCRIPT_LIMIT - 1), ""),
    Row("a script of more bytes ends at the limit", b"\n" * (SCRIPT_LIMIT + 1), "script limit", status=6),
    Row(
        "the snapshot that would make room takes the last serial",
        """
        create a
        fill a 0 34816 65
        sync
        df
        """,
        """
        ok
        error 19 SerialEnd
        snapshot 18446744073709551615
        ok
        ok blocks 96 user 86 free 85 inodes 16 free 14 serial 18446744073709551615
        """,
        options={"serial": LAST_SERIAL - 1},
    ),
    Row(
        "a file of 8,192 leaves on 16 MiB",
        """
        create a
        fill a 0 4194304 65
        cat a 0 1
        """,
        """
        ok
        ok
        ok 1
        A
        snapshot 3
        """,
        MIDDLE,
    ),
    Row(
        "three snapshots one after the other",
        """
        create a
        sync
        create b
        sync
        create c
        sync
        """,
        """
        ok
        ok
        snapshot 3
        ok
        ok
        snapshot 4
        ok
        ok
        snapshot 5
        """,
        MIDDLE,
    ),
    Row(
        "a file is written, moved to another directory and removed",
        """
        mkdir d
        create d/a
        write d/a 0 xy
        sync
        mv d/a b
        sync
        rm b
        """,
        """
        ok
        ok
        ok
        ok
        snapshot 3
        ok
        ok
        snapshot 4
        ok
        snapshot 5
        """,
    ),
]

# What the rules leave to a choice, or what is easily read in another way

CHOICES = [
    Row(
        "a beginning counts only where the whole line can be short enough",
        f"mv {'x' * (LONGEST_LINE - 3)}\nwrite {'x' * (LONGEST_LINE - 6)}\nls {'x' * (LONGEST_LINE - 3)}",
        """
        error 21 BadLine 8190
        error 21 BadLine 8188
        error 7 BadPath
        """,
    ),
    Row(
        "numbers, modes and byte words are tested as they stand",
        r"""
        fill a 0 0 65
        cat a 00 1
        cat a 0 65537
        truncate a 18446744073709551616
        chmod a 0888
        chmod a 17777
        chown a 0 4294967296
        write a 0 x\4
        write a 0 x\4g
        @
        @01 ls
        @18446744073709551616 ls
        @1
        @1 quits
         ls
        l
        """,
        """
        error 21 BadLine 9
        error 21 BadLine 7
        error 21 BadLine 12
        error 21 BadLine 30
        error 21 BadLine 9
        error 21 BadLine 12
        error 21 BadLine 19
        error 21 BadLine 13
        error 21 BadLine 13
        error 21 BadLine 1
        error 21 BadLine 2
        error 21 BadLine 20
        error 21 BadLine 2
        error 21 BadLine 7
        error 21 BadLine 0
        error 21 BadLine 1
        """,
    ),
    Row(
        "fsync doesn't follow a last link, and a slash at the end means nothing",
        """
        symlink nosuch l
        fsync l
        stat l/
        readlink l/
        ls l/
        create f/
        ls f/
        cat f/ 0 1
        """,
        f"""
        ok
        ok
        snapshot 3
        ok link inode 2 size 6 mode 0777 uid 0 gid 0 links 1 {AT_1000}
        ok nosuch
        error 1 NoEntry
        ok
        error 2 NotDir
        ok 0

        snapshot 4
        """,
    ),
    Row(
        "a new link reads and walks the old path before it reads the new one, and a rename reads both first",
        r"""
        create f
        mkdir d
        ln nosuch x\00
        ln d x\00
        ln f x\00
        ln f .
        ln f d/..
        ln f nosuch/x
        ln f d
        mv nosuch x\00
        mv . x\00
        mv nosuch .
        symlink x\00 .
        symlink x .
        """,
        """
        ok
        ok
        error 1 NoEntry
        error 3 IsDir
        error 7 BadPath
        error 15 Reserved
        error 15 Reserved
        error 1 NoEntry
        error 4 Exists
        error 7 BadPath
        error 7 BadPath
        error 15 Reserved
        error 7 BadPath
        error 15 Reserved
        snapshot 3
        """,
    ),
    Row(
        "what a rename replaces has a row less, and its time where it lives on",
        """
        create a
        create b
        ln b c
        mv a b
        stat c
        stat b
        mv b b
        ln c d
        mv c d
        ls
        stat /
        """,
        """
        ok
        ok
        ok
        ok
        ok file inode 3 size 0 mode 0644 uid 0 gid 0 links 1 ftime 2 mtime 2 atime 2 ctime 4
        ok file inode 2 size 0 mode 0644 uid 0 gid 0 links 1 ftime 1 mtime 1 atime 1 ctime 4
        ok
        ok
        ok
        ok 3
        3 d
        2 b
        3 c
        ok dir inode 1 size 512 mode 0755 uid 0 gid 0 links 0 ftime 1000 mtime 8 atime 1000 ctime 8
        snapshot 3
        """,
        options={"moments": [0, 1, 2, 3, 4, 5, 6, 7, 8]},
    ),
    Row(
        "a rename onto another name of the same inode changes nothing, so nothing is left to sync",
        """
        create a
        ln a b
        sync
        mv a b
        mv b a
        """,
        """
        ok
        ok
        ok
        snapshot 3
        ok
        ok
        """,
    ),
    Row(
        "what may take whose place, in the order of the tests",
        """
        mkdir d
        mkdir d/e
        mkdir x
        create f
        mv f d
        mv x f
        mv x d
        mv d d/e
        mv d/e/y nosuch/x
        mv f nosuch/x
        mv f f/x
        mv x d/e
        ls d
        stat d/e/..
        """,
        f"""
        ok
        ok
        ok
        ok
        error 3 IsDir
        error 2 NotDir
        error 5 NotEmpty
        error 14 IntoItself
        error 1 NoEntry
        error 1 NoEntry
        error 2 NotDir
        ok
        ok 1
        4 e
        ok dir inode 2 size 512 mode 0755 uid 0 gid 0 links 1 {AT_1000}
        snapshot 3
        """,
    ),
    Row(
        "a directory that is gone is nobody's, also where its number is another's",
        """
        mkdir d
        @1 cd d
        rmdir d
        @1 ls
        @1 create .
        @1 create x
        @1 stat ..
        mkdir e
        stat e
        @1 ls
        @1 ls /
        @1 cd /e
        @1 ls
        @1 cd ..
        @1 ls
        """,
        f"""
        ok
        ok
        ok
        error 1 NoEntry
        error 15 Reserved
        error 1 NoEntry
        error 1 NoEntry
        ok
        ok dir inode 2 size 512 mode 0755 uid 0 gid 0 links 1 {AT_1000}
        error 1 NoEntry
        ok 1
        2 e
        ok
        ok 0
        ok
        ok 1
        2 e
        snapshot 3
        """,
    ),
    Row(
        "sixteen links are followed in one walk, wherever they stand",
        "symlink . s\ncreate a\nsymlink s/a t\n"
        + "".join(f"stat {'s/' * links}a\n" for links in (16, 17))
        + "".join(f"cat {'s/' * links}t 0 1\n" for links in (14, 15))
        + "".join(f"stat {'s/' * links}t\n" for links in (16, 17))
        + f"mv {'s/' * 16}a {'s/' * 16}b\nls",
        f"""
        ok
        ok
        ok
        ok file inode 3 {NEW_FILE} {AT_1000}
        error 8 LinkLoop
        ok 0

        error 8 LinkLoop
        ok link inode 4 size 3 mode 0777 uid 0 gid 0 links 1 {AT_1000}
        error 8 LinkLoop
        ok
        ok 3
        2 s
        3 b
        4 t
        snapshot 3
        """,
    ),
    Row(
        "names and targets are byte words, printed with escapes where they have to be",
        r"""
        create a\20\0a\5C\7f
        create é
        symlink \c3\a9/ l
        ls
        readlink l
        write l 0 \00\20~\FF!
        cat é 0 9
        cat é 5 9
        cat é 4 0
        """,
        r"""
        ok
        ok
        ok
        ok 3
        2 a\20\0a\5c\7f
        3 \c3\a9
        4 l
        ok \c3\a9/
        ok
        ok 5
        \00\20~\ff!
        ok 0

        ok 0

        snapshot 3
        """,
    ),
    Row(
        "a long name leaves its leaf, and the least number that is absent is taken again",
        f"""
        create {'a' * 28}
        create {'b' * 28}
        df
        rm {'a' * 28}
        df
        create {'c' * 28}
        df
        mv {'b' * 28} b
        mv b {'a' * 27}
        df
        """,
        """
        ok
        ok
        ok … free 82 … serial 2
        ok
        ok … free 83 … serial 2
        ok
        ok … free 82 … serial 2
        ok
        ok
        ok … free 83 … serial 2
        snapshot 3
        """,
    ),
    Row(
        "what is cut off is 0 where the file grows again, and a hole takes no block",
        r"""
        create a
        write a 0 abcdef
        truncate a 2
        truncate a 1025
        cat a 0 4
        df
        truncate a 512
        write a 1023 z
        truncate a 1024
        df
        cat a 1020 9
        truncate a 0
        df
        """,
        r"""
        ok
        ok
        ok
        ok
        ok 4
        ab\00\00
        ok … free 83 …
        ok
        ok
        ok
        ok … free 82 …
        ok 4
        \00\00\00z
        ok
        ok … free 84 …
        snapshot 3
        """,
    ),
    Row(
        "times and modes as they are set",
        """
        create a
        chmod a 7
        chown a 4294967295 7
        utime a 4294967295 3
        stat a
        write a 0 x
        stat a
        cat a 0 1
        truncate a 0
        symlink a l
        chmod l 7777
        stat a
        stat /
        """,
        """
        ok
        ok
        ok
        ok
        ok file inode 2 size 0 mode 0007 uid 4294967295 gid 7 links 1 ftime 1 mtime 3 atime 4294967295 ctime 4
        ok
        ok file inode 2 size 1 mode 0007 uid 4294967295 gid 7 links 1 ftime 1 mtime 6 atime 4294967295 ctime 6
        ok 1
        x
        ok
        ok
        ok
        ok file inode 2 size 0 mode 7777 uid 4294967295 gid 7 links 1 ftime 1 mtime 9 atime 4294967295 ctime 11
        ok dir inode 1 size 512 mode 0755 uid 0 gid 0 links 0 ftime 1000 mtime 10 atime 1000 ctime 10
        snapshot 3
        """,
        options={"moments": [5, *range(1, 14)]},  # no begin by time before moment 15
    ),
    Row(
        "a hold is one for a session, and bars the snapshot that time would begin",
        """
        hold
        hold
        create a
        tick
        sync
        unhold
        @3 unhold
        tick
        tick
        tick
        """,
        """
        ok
        ok
        ok
        ok
        error 18 Held 1
        ok
        ok
        ok
        ok
        ok
        snapshot 3
        """,
        options={"moments": [0, 0, 0, 0, 10, 10, 10, 9, 11]},
    ),
    Row(
        "a word to end may have any session, is answered, and what follows it isn't read",
        """
        hold
        create a
        @99 quit
        nonsense
        """,
        """
        ok
        ok
        ok
        snapshot 3
        """,
    ),
    Row(
        "a failing device in the last turn is its refusal, and the status",
        "create a",
        """
        ok
        error 16 Device
        """,
        options={"faults": [0]},
        status=3,
    ),
    Row(
        "a failing step in the background is a notice, and no more are tried in that turn",
        """
        create a
        tick
        df
        """,
        """
        ok
        ok
        notice device
        ok … serial 2
        snapshot 3
        """,
        options={"moments": [0, 0, 10], "faults": [2]},
    ),
    Row(
        "a line without a reading is a tick, also where time begins a snapshot",
        """
        create a
        nonsense
        @16 tick
        tick
        """,
        """
        ok
        error 21 BadLine 0
        error 20 NoSession
        ok
        snapshot 3
        """,
        options={"moments": [0, 0, 10]},
    ),
    Row(
        "no need always fits, and only removing goes into the reserve",
        """
        create a
        fill a 0 34304 65
        sync
        hold
        create b
        mkdir c
        truncate a 100
        chmod a 600
        write a 5 x
        write a 512 x
        rm b
        truncate a 600
        df
        truncate a 8193
        truncate a 50
        """,
        """
        ok
        ok
        ok
        snapshot 3
        ok
        ok
        error 11 NoSpace need 1 free 16
        ok
        ok
        ok
        error 11 NoSpace need 1 free 15
        ok
        ok
        ok blocks 96 user 86 free 15 inodes 16 free 14 serial 3
        error 11 NoSpace need 1 free 15
        ok
        snapshot 4
        """,
    ),
    Row(
        "a cut under a snapshot takes five pointer blocks, until the reserve is too small as well",
        "\n".join(f"create {name}\nwrite {name} {2**41 + 3 * 512 - 1} xy" for name in "abcd")
        + "\ncreate g\nsync\nhold\ndf\nfill g 0 20480 65\n"
        + "\n".join(f"truncate {name} {2**41 + 3 * 512}" for name in "abcd")
        + "\nrm d\nrm c\ndf",
        "ok\n" * 10
        + """snapshot 3
        ok
        ok blocks 96 user 86 free 57 inodes 16 free 10 serial 3
        ok
        ok
        ok
        ok
        error 11 NoSpace need 5 free 1
        ok
        ok
        ok blocks 96 user 86 free 5 inodes 16 free 12 serial 3
        snapshot 4
        """,
    ),
    Row(
        "a snapshot in progress is finished for room also while a session holds",
        """
        create a
        tick
        hold
        fill a 0 34816 65
        """,
        """
        ok
        ok
        ok
        ok
        snapshot 3
        snapshot 4
        """,
        options={"moments": [0, 0, 10]},
    ),
    Row(
        "time counts from the last begin, whoever asked for it",
        """
        create a
        sync
        create b
        tick
        tick
        tick
        tick
        tick
        tick
        tick
        """,
        """
        ok
        ok
        snapshot 3
        ok
        ok
        ok
        ok
        ok
        ok
        ok
        ok
        snapshot 4
        """,
        options={"moments": [0, 5, 5, 10, 14, 14, 14, 14, 15, 15, 15]},
    ),
    Row(
        "the turn of a line without a reading has its steps",
        """
        create a
        nonsense
        nonsense
        df
        df
        """,
        """
        ok
        error 21 BadLine 0
        error 21 BadLine 0
        ok … serial 2
        snapshot 3
        ok … serial 3
        """,
        options={"moments": [0, 0, 10]},
    ),
    Row(
        "the tree of long names keeps its size, and so its pointer block",
        "create a\n"
        + "".join(f"ln a {letter * 28}\n" for letter in "bcdefghijklmnopqr")
        + f"df\nrm {'r' * 28}\ndf\nrm {'b' * 28}\nln a {'s' * 28}\ndf\nls",
        "ok\n" * 18
        + f"""ok … free 65 inodes …
        ok
        ok … free 66 inodes …
        ok
        ok
        ok … free 66 inodes …
        ok 17
        2 a
        2 {'s' * 28}
        """
        + "".join(f"2 {letter * 28}\n" for letter in "cdefghijklmnopq")
        + "snapshot 3",
    ),
    Row(
        "a cut inside a leaf writes it, and a snapshot's leaf is another one then",
        """
        create a
        write a 0 xyz
        sync
        hold
        truncate a 1
        df
        truncate a 9
        cat a 0 9
        truncate a 0
        df
        """,
        r"""
        ok
        ok
        ok
        snapshot 3
        ok
        ok
        ok … free 83 inodes …
        ok
        ok 9
        x\00\00\00\00\00\00\00\00
        ok
        ok … free 84 inodes …
        snapshot 4
        """,
    ),
    Row(
        "any session's sync is refused while another holds",
        """
        hold
        @1 sync
        @1 fsync /
        unhold
        @15 hold
        sync
        @15 sync
        """,
        """
        ok
        error 18 Held 1
        error 18 Held 1
        ok
        ok
        error 18 Held 1
        error 18 Held 1
        """,
    ),
]


# Rows of single parts


def made(volume):
    """The maker's line."""
    if volume.fault():
        return f"bad {volume.fault()}"
    return f"made blocks {volume.blocks} user {volume.user} free {volume.user - 1} inodes {volume.inodes}"


VOLUMES = [
    ("64 KiB", SMALL, "made blocks 96 user 86 free 85 inodes 16"),
    ("a byte below the least", Volume.of_size(32767), "bad TooShort"),
    ("the least", Volume.of_size(32768), "made blocks 32 user 22 free 21 inodes 16"),
    ("64 KiB and a byte", Volume.of_size(65537), "made blocks 96 user 86 free 85 inodes 16"),
    ("1 MiB with great blocks", Volume.of_size(2**20, 4096), "made blocks 252 user 234 free 233 inodes 256"),
    ("16 MiB", MIDDLE, "made blocks 32736 user 30656 free 30655 inodes 4096"),
    ("blocks of 1,000 bytes", Volume.of_size(65536, 1000), "bad BlockSize"),
    ("15 inodes", Volume.of_size(65536, 512, 15), "bad Inodes"),
    ("128 GiB", Volume.of_size(137438973952), "bad TooLarge"),
]


class NodeRow(NamedTuple):
    """What a change of a node takes: old and new size and leaves, the leaves written, and what a snapshot holds."""

    name: str
    old: tuple
    new: tuple
    written: list
    is_held: bool
    need: int


def node(size, leaves):
    return size, Runs([leaves])


EMPTY = node(0, (0, 0))
NODES = [
    NodeRow("16 leaves", EMPTY, node(8192, (0, 16)), range(16), False, 16),
    NodeRow("the 17th has a pointer block", node(8192, (0, 16)), node(8704, (0, 17)), [16], False, 2),
    NodeRow("the 18th has it already", node(8704, (0, 17)), node(9216, (0, 18)), [17], False, 1),
    NodeRow("a cut takes nothing", node(9216, (0, 18)), node(8704, (0, 17)), [], False, 0),
    NodeRow("but where a snapshot holds the pointer block", node(9216, (0, 18)), node(8704, (0, 17)), [], True, 1),
    NodeRow("a leaf under five levels", EMPTY, node(2**41 + 1, (2**32, 2**32 + 1)), [2**32], False, 6),
    NodeRow("two held leaves under one block", node(9216, (0, 18)), node(9216, (0, 18)), [0, 17], True, 3),
    NodeRow("300,000 bytes", EMPTY, node(300000, (0, 586)), range(586), False, 591),
]

PATHS = [
    (b"", "BadPath"),
    (b"n" * 1024, "BadPath"),
    (b"n" * 511, "NameTooLong"),
    (b"a\0", "BadPath"),
    (b"n" * 511 + b"\0", "BadPath"),
    (b"//a//b/", (b"a", b"b")),
    (b"/", ()),
]


def need(row):
    """Counted position by position, as the rule says it, beside the machine's count by runs."""
    old, new = positions(SMALL, row.old), positions(SMALL, row.new)
    marked = touched(SMALL, old, new, Runs.of(row.written))
    own = [set() if row.is_held else set(level) for level in old]
    return sum(len(set(level) - (own[at] if at < len(own) else set())) for at, level in enumerate(marked))


def parsed(text):
    try:
        return parse(text).parts
    except Refused as refusal:
        return refusal.name


def part_rows():
    """Names, and what is and what has to be."""
    for name, volume, want in VOLUMES:
        yield f"the maker's numbers: {name}", made(volume), want
    for row in NODES:
        yield f"need: {row.name}", need(row), row.need
    for path, want in PATHS:
        yield f"path: {path[:8]!r}", parsed(path), want
    yield "half of 64 KiB", SMALL.half, 5
    yield "half of 1 MiB", Volume.of_size(2**20, 4096).half, 9
    file = File().written(1024, 1025, b"x", 512)
    yield "a hole before a byte", file.read(1023, 10), b"\0x"
    yield "the hole's leaves", (file.size, list(file.present)), (1025, [2])
    pieces = list(clipped(file.written(1000, 1030, 7, 512).pieces, 1020, 1026))
    yield "pieces are cut", pieces, [(1020, 1026, 7)]
    draw = Draw(1)
    yield "the workload's first draw", (draw.below(8), draw.x), (6, 7806831264735756412)
    first, again = workload(MIDDLE, 1), workload(MIDDLE, 1)
    yield "the workload's line", (first.startswith("ran 2000 ok "), first.count("\n")), (True, 1)
    yield "the workload on another volume", again, first
    runs = Runs([(3, 5), (0, 2), (5, 9), (20, 2**40)])
    yield "runs that meet are one", runs.pairs, ((0, 2), (3, 9), (20, 2**40))
    rest = runs - Runs([(1, 4), (6, 7), (30, 31)])
    yield "runs without others", rest.pairs, ((0, 1), (4, 6), (7, 9), (20, 30), (31, 2**40))


def matches(line, want):
    return re.fullmatch(".*".join(map(re.escape, want.split("…"))), line) is not None


def lines_of(text):
    """The lines of a text of this file, without the margin that all have in common."""
    lines = text.split("\n")
    if len(lines) > 1 and not lines[0].strip():
        lines = lines[1:]
    if not lines[-1].strip():
        lines = lines[:-1]
    margin = min((len(line) - len(line.lstrip()) for line in lines if line.strip()), default=0)
    return [line[margin:] for line in lines]


def test(row):
    """The lines put and those wanted, where they differ."""
    script = row.script if isinstance(row.script, bytes) else "\n".join([*lines_of(row.script), ""]).encode()
    texts = run(row.volume, script, **{"moments": [1000], **row.options})
    put, want = "".join(texts).split("\n")[:-1], [line.lstrip(" ") for line in lines_of(row.output)]
    same = len(put) == len(want) and all(map(matches, put, want)) and status(texts) == row.status
    return None if same else (put, want)


def main():
    failed = 0
    rows = EXAMPLES + CHOICES
    for row in rows:
        found = test(row)
        if found:
            failed += 1
            print(f"{row.name}: put and wanted:")
            for at in range(max(map(len, found))):
                pair = [side[at] if at < len(side) else "-" for side in found]
                print(f"  {' ' if matches(*pair) else '*'} {pair[0]}   |   {pair[1]}")
    parts = list(part_rows())
    for name, got, want in parts:
        if got != want:
            failed += 1
            print(f"{name}: {got!r}, wanted {want!r}")
    print(f"{len(EXAMPLES)} examples, {len(CHOICES)} choices, {len(parts)} parts: {failed} failed")
    return 1 if failed else 0


if __name__ == "__main__":
    sys.exit(main())
