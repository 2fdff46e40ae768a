#!/usr/bin/env python3
"""The definitions of the abstract machine and of scripts, read into Python, module by module in their order.

Each function keeps the name and the cases of its definition, and stands under the name of its module of crates/*/specs,
so that the two can be held side by side; what it means is said there. bench/compare_machines holds the whole against a
machine that was written without them. A definition that changes is changed here too.

    python3 bench/definitions.py [SCRIPT]     what a script puts on the small volume at moment 1000

Some forms differ, and none of them changes a value:

- An `Err` is raised and what comes to `Ok` is returned, so a `do` is one line after another. What is given a result is
  given a function that comes to it.
- A recursion over a list is a loop. Lists are tuples and bytes are `bytes`. A fill may name 2^48 bytes before it is
  refused, so a content is `Bytes`, with 0 between runs of bytes, and ascending numbers are `Numbers`, runs as well, each
  once and in order by itself; what is said of one number is said of all (`index_above`).
- The ids of a copy, a function of positions, are a dict of those that were ever given. What a script puts is a list of
  texts, one for each turn.
- What is asked for again is kept, some of it with the tree or the copy that it is of (`once`).
- A name that is a word of Python or of its library has an underscore behind it. Where two modules have one name, the
  second is in a class called after its module.

Left out is what only laws, clauses or examples are about.
"""
import sys
from bisect import bisect_right
from dataclasses import dataclass, field, make_dataclass, replace
from functools import lru_cache, wraps
from types import SimpleNamespace

sys.dont_write_bytecode = True  # no folders of compiled modules beside the sources
sys.setrecursionlimit(100000)  # a path of many names through many links

# fmt: off, since a case stands on one line there too


def once(function):
    """Keeps what a function gave with its last argument, a tree or a copy, which never changes."""
    name = function.__name__

    @wraps(function)
    def kept(*arguments):
        store = arguments[-1].kept
        key = (name, *arguments[:-1])
        if key not in store:
            store[key] = function(*arguments)
        return store[key]

    return kept


def variants(text):
    """The variants of a type, each with the names of its fields."""
    words = [variant.split() for variant in text.split("|")]
    return [make_dataclass(name, fields, frozen=True) for name, *fields in words]


def choice(text):
    """The same by their names, for a type whose variants are called after it."""
    return SimpleNamespace(**{variant.__name__: variant for variant in variants(text)})


# What std, qx_outside and qx_bytes have: lists


class Same:
    """One byte, so many times."""

    def __init__(self, count, byte):
        self.count, self.byte = count, byte

    def __len__(self):
        return self.count

    def __getitem__(self, part):
        start, stop, _ = part.indices(self.count)
        return Same(max(stop - start, 0), self.byte)

    def __bytes__(self):
        return bytes([self.byte]) * self.count


@dataclass(frozen=True)
class Bytes:
    """A list of bytes by its length and its runs, place and bytes, in order and apart; between runs it is 0."""

    length: int = 0
    runs: tuple = ()

    def part(self, start, stop):
        """The runs from one place to another."""
        for at, run in self.runs:
            first, last = max(at, start), min(at + len(run), stop)
            if first < last:
                yield first, run[first - at : last - at]


@dataclass(frozen=True)
class Numbers:
    """A list of numbers in ascending order, each once, by its runs: first number and end, none that meets another."""

    runs: tuple = ()

    @staticmethod
    def of(numbers):
        return Numbers.in_runs((n, n + 1) for n in numbers)

    @staticmethod
    def in_runs(runs):
        """All numbers of runs, which may stand in any order and over one another."""
        joined = []
        for first, end in sorted(runs):
            if joined and first <= joined[-1][1]:
                joined[-1] = (joined[-1][0], max(joined[-1][1], end))
            elif first < end:
                joined.append((first, end))
        return Numbers(tuple(joined))

    def __len__(self):
        return self.count()

    def count(self):
        return sum(end - first for first, end in self.runs)  # `len` ends at 2^63

    def __iter__(self):
        return (n for first, end in self.runs for n in range(first, end))

    def __contains__(self, n):
        k = bisect_right(self.runs, (n, float("inf"))) - 1
        return k >= 0 and n < self.runs[k][1]

    def __or__(self, other):
        return Numbers.in_runs((*self.runs, *other.runs))

    def __and__(self, other):
        return Numbers(
            tuple(
                (max(first, start), min(end, stop))
                for first, end in self.runs
                for start, stop in other.runs
                if max(first, start) < min(end, stop)
            )
        )

    def __sub__(self, other):
        kept = self.runs
        for start, stop in other.runs:
            kept = [part for first, end in kept for part in ((first, min(end, start)), (max(first, stop), end))]
            kept = [(first, end) for first, end in kept if first < end]
        return Numbers(tuple(kept))

    def divided(self, by):
        """The quotients."""
        return Numbers.in_runs((first // by, (end - 1) // by + 1) for first, end in self.runs)


def replicate(count, byte):
    return Same(count, byte)


def slice_range(xs, a, b):
    b = min(b, xs.length)
    if b <= a:
        return b""
    into = bytearray(b - a)
    for at, run in xs.part(a, b):
        into[at - a : at - a + len(run)] = bytes(run)
    return bytes(into)


def resized(content, length):
    return Bytes(length, tuple(content.part(0, length)))


def put_at(content, at, others):
    end = at + len(others)
    return Bytes(max(content.length, end), (*content.part(0, at), (at, others), *content.part(end, content.length)))


def slice_set(xs, k, x):
    return (*xs[:k], x, *xs[k + 1 :]) if k < len(xs) else xs


def slice_get(xs, k):
    return xs[k] if k < len(xs) else None


def unwrap_or(x, other):
    return other if x is None else x


def position(test, xs):
    return next((k for k, x in enumerate(xs) if test(x)), None)


def position_or_len(test, xs):
    return next((k for k, x in enumerate(xs) if test(x)), len(xs))


def range_with_len(first, count):
    return Numbers.in_runs([(first, first + count)])


def decimal(n):
    return b"%d" % n


# qx_geom/Pointer


def ceil_div(a, b):
    return (a + b - 1) // b


def per_block(blocksize):
    return blocksize // 4


def reach(blocksize, levels):
    return 16 * per_block(blocksize) ** levels


# qx_geom/Layout

(Geometry,) = variants(
    "Geometry len4 blocksize num_blocks num_inodes bitmap_leaves bitmap_pointers inode_leaves inode_pointers half"
)


def levels_from(blocksize, n, l, more):
    if more == 0:
        return l
    return l if n <= reach(blocksize, l) else levels_from(blocksize, n, l + 1, more - 1)


@lru_cache(None)
def levels_for(blocksize, n):
    return levels_from(blocksize, n, 0, 6)


def level_count(blocksize, n, k):
    return ceil_div(n, per_block(blocksize) ** k)


def below_level(blocksize, n, k):
    return sum(level_count(blocksize, n, below) for below in range(k))


def tree_blocks(blocksize, n):
    return below_level(blocksize, n, levels_for(blocksize, n) + 1)


def pointer_blocks(blocksize, n):
    return tree_blocks(blocksize, n) - n


def whole_length(len_):
    return len_ // 4096 * 4096


def blocks_in(len_, blocksize):
    return max(whole_length(len_) - 0x4000, 0) // blocksize


def bitmap_leaves_of(blocksize, blocks):
    return ceil_div(ceil_div(blocks, 8), blocksize)


def inode_leaves_of(blocksize, inodes):
    return ceil_div(inodes * 128, blocksize)


def half_of(len_, blocksize, inodes):
    bitmap = tree_blocks(blocksize, bitmap_leaves_of(blocksize, blocks_in(len_, blocksize)))
    return bitmap + tree_blocks(blocksize, inode_leaves_of(blocksize, inodes))


def numbers_of(len_, blocksize, inodes):
    return Geometry(
        len4=whole_length(len_),
        blocksize=blocksize,
        num_blocks=blocks_in(len_, blocksize),
        num_inodes=inodes,
        bitmap_leaves=bitmap_leaves_of(blocksize, blocks_in(len_, blocksize)),
        bitmap_pointers=pointer_blocks(blocksize, bitmap_leaves_of(blocksize, blocks_in(len_, blocksize))),
        inode_leaves=inode_leaves_of(blocksize, inodes),
        inode_pointers=pointer_blocks(blocksize, inode_leaves_of(blocksize, inodes)),
        half=half_of(len_, blocksize, inodes),
    )


def user_blocks(g):
    return g.num_blocks - 2 * g.half


# qx_geom/Positions


@dataclass(frozen=True)
class Shape:
    levels: int
    present: Numbers


def shape_of(blocksize, size, present):
    return Shape(levels_for(blocksize, ceil_div(size, blocksize)), present)


def index_above(blocksize, level, leaves):
    return leaves.divided(per_block(blocksize) ** level)


@lru_cache(4096)
def at_level(blocksize, shape, k):
    return index_above(blocksize, k, shape.present) if k <= shape.levels else Numbers()


def has_position(blocksize, shape, k, j):
    return j in at_level(blocksize, shape, k)


def with_number(present, x):
    return present | Numbers.of([x])


def kept_leaves(present, new_leaves, gone):
    return (present & range_with_len(0, new_leaves)) - Numbers.of([] if gone is None else [gone])


def present_after(present, new_leaves, written, gone):
    return kept_leaves(present, new_leaves, gone) | written


# qx_geom/Touch


def leaves_without(first, second):
    return first.present - second.present


@lru_cache(4096)
def changed_leaves(old, new, written):
    return written | (leaves_without(new, old) | leaves_without(old, new))


def is_touched(blocksize, old, new, written, k, j):
    return old.levels < k or j in index_above(blocksize, k, changed_leaves(old, new, written))


def is_fresh(blocksize, old, new, written, private, k, j):
    return not has_position(blocksize, old, k, j) or (
        is_touched(blocksize, old, new, written, k, j) and not private(k, j)
    )


def fresh_at(blocksize, old, new, written, private, k):
    # positions that the old node lacks are fresh; they may be very many, and aren't taken one by one
    here, there = at_level(blocksize, new, k), at_level(blocksize, old, k)
    return (here - there) | Numbers.of(j for j in here & there if is_fresh(blocksize, old, new, written, private, k, j))


# qx_geom/Room

greatest_end = 2**48
reserve = 16


def fits(is_removing, need, free):
    return need == 0 or (need <= free if is_removing else need + reserve <= free)


# qx_path/Names


def names_in(bytes_):
    return tuple(piece for piece in bytes_.split(b"/") if piece)


# qx_path/PathParts


@dataclass(frozen=True)
class PathParts:
    absolute: bool
    names: tuple


def parts_of(bytes_):
    return PathParts(bytes_.startswith(b"/"), names_in(bytes_))


def path_of(bytes_):
    if len(bytes_) == 0:
        raise Err("Empty")
    if 1023 < len(bytes_):
        raise Err("TooLong")
    if 0 in bytes_:
        raise Err("ZeroByte")
    if any(510 < len(name) for name in names_in(bytes_)):
        raise Err("NameTooLong")
    return parts_of(bytes_)


def last_name(path):
    return path.names[-1] if path.names else None


# The types of the code of qx_model


@dataclass(frozen=True)
class Attr:
    mode: int
    uid: int
    gid: int
    ftime: int
    mtime: int
    atime: int
    ctime: int


op = choice(
    "List path | Stat path | Read path at count | Create path | Mkdir path | Write path at bytes | "
    "Fill path at count byte | Truncate path size | Remove path | RemoveDir path | Rename from_ to | "
    "Link old new | Symlink target new | ReadLink path | Chmod path mode | Chown path uid gid | "
    "Utime path atime mtime"
)
act = choice("Op op | Cd path | Df | Hold | Unhold | Sync | Fsync path | Tick | End")
reply = choice("Done | Rows rows | Stat view | Bytes bytes | Target target | Space view | Refused refusal")
refusal = choice(
    "NoEntry | NotDir | IsDir | Exists | NotEmpty | NameTooLong | BadPath | LinkLoop | WrongKind | "
    "FileTooBig | NoSpace need free | NoInodes | ReadOnly | IntoItself | Reserved | Device | NoMemory | "
    "Held count | SerialEnd | NoSession | BadLine at"
)
notice = choice("Snapshot serial | Device | Memory")


@dataclass(frozen=True)
class RowView:
    inode: int
    name: bytes


@dataclass(frozen=True)
class StatView:
    kind: int
    inode: int
    size: int
    links: int
    attr: Attr


@dataclass(frozen=True)
class SpaceView:
    blocks: int
    user: int
    free: int
    inodes: int
    free_inodes: int
    serial: int


@dataclass(frozen=True)
class VolEvent:
    session: int
    moment: int
    act: object


@dataclass(frozen=True)
class Turn:
    reply: object
    notices: tuple


# qx_model/Tree

Unused, Row = Slot = variants("Unused | Row inode name long")
Directory, File, Link, Special = Body = variants("Directory slots parent | File content | Link target | Special")


@dataclass(frozen=True)
class Entry:
    attr: Attr
    size: int
    present: Numbers
    body: object


@dataclass(frozen=True, eq=False)
class Tree:
    inodes: tuple
    long_size: int
    long_names: tuple
    long_present: Numbers
    kept: dict = field(default_factory=dict, init=False, repr=False)


def entry_of(t, n):
    if n == 0:
        return None
    return slice_get(t.inodes, n - 1)


def slots_of_body(body):
    match body:
        case Directory(slots, parent): return slots
        case File(content): return ()
        case Link(target): return ()
        case Special(): return ()


def slots_of_entry(e):
    return () if e is None else slots_of_body(e.body)


def slots_of(t, d):
    return slots_of_entry(entry_of(t, d))


def is_special_body(body):
    return isinstance(body, Special)


dot_name = b"."
dots_name = b".."
record_size = 32
longest_short_name = 27


def is_dots(name):
    match len(name):
        case 0: return False
        case 1: return name[0] == 46
        case 2: return name[0] == 46 and name[1] == 46
        case _: return False


def named_by(slot):
    match slot:
        case Unused(): return None
        case Row(n, name, long): return None if is_dots(name) else n


def is_link(n, slot):
    return named_by(slot) == n


def links_of(t, n):
    return sum(sum(is_link(n, s) for s in slots_of_entry(o)) for o in t.inodes)


# qx_model/Owners

OfInodes = ("OfInodes",)
OfLongfile = ("OfLongfile",)


def OfFurther(k):
    return ("OfFurther", k)


def OfInode(n):
    return ("OfInode", n)


# qx_model/EmptyTree


def new_directory(blocksize, number, parent, moment):
    return Entry(
        attr=new_attr(directory_mode, moment),
        size=blocksize,
        present=Numbers.of([0]),
        body=Directory(
            (Row(number, dot_name, None), Row(parent, dots_name, None)) + (Unused(),) * (blocksize // record_size - 2),
            parent,
        ),
    )


def empty_tree(blocksize, num_inodes, moment):
    return Tree(
        inodes=(new_directory(blocksize, 1, 1, moment),) + (None,) * (num_inodes - 1),
        long_size=0,
        long_names=(),
        long_present=Numbers(),
    )


# qx_model/Refusals


def refusal_number(r):
    match r:
        case refusal.NoEntry(): return 1
        case refusal.NotDir(): return 2
        case refusal.IsDir(): return 3
        case refusal.Exists(): return 4
        case refusal.NotEmpty(): return 5
        case refusal.NameTooLong(): return 6
        case refusal.BadPath(): return 7
        case refusal.LinkLoop(): return 8
        case refusal.WrongKind(): return 9
        case refusal.FileTooBig(): return 10
        case refusal.NoSpace(need, free): return 11
        case refusal.NoInodes(): return 12
        case refusal.ReadOnly(): return 13
        case refusal.IntoItself(): return 14
        case refusal.Reserved(): return 15
        case refusal.Device(): return 16
        case refusal.NoMemory(): return 17
        case refusal.Held(count): return 18
        case refusal.SerialEnd(): return 19
        case refusal.NoSession(): return 20
        case refusal.BadLine(at): return 21


# qx_model/Requests


def changes(o):
    match o:
        case op.List(path): return False
        case op.Stat(path): return False
        case op.Read(path, at, count): return False
        case op.ReadLink(path): return False
        case _: return True


# qx_model/Outcomes


class Err(Exception):
    """What is raised in place of an `Err`, with its reason."""

    def __init__(self, why):
        super().__init__(why)
        self.why = why


def refuse_if(test, why):
    if test:
        raise Err(why)


def ok_or(x, why):
    if x is None:
        raise Err(why)
    return x


# qx_model/Directories


def with_entry(t, n, e):
    if n == 0:
        return t
    return replace(t, inodes=slice_set(t.inodes, n - 1, e))


def live_count(t):
    return sum(e is not None for e in t.inodes)


def is_live(t, n):
    return entry_of(t, n) is not None


def parent_of_body(body):
    match body:
        case Directory(slots, parent): return parent
        case File(content): return None
        case Link(target): return None
        case Special(): return None


def parent_of(t, d):
    e = entry_of(t, d)
    return None if e is None else parent_of_body(e.body)


def is_directory(t, n):
    return parent_of(t, n) is not None


def is_special(t, n):
    e = entry_of(t, n)
    return e is not None and is_special_body(e.body)


def is_unused(slot):
    return isinstance(slot, Unused)


def has_name(name, slot):
    match slot:
        case Unused(): return False
        case Row(n, other, long): return other == name


def inode_of_slot(slot):
    match slot:
        case Unused(): return None
        case Row(n, name, long): return n


def long_of_slot(slot):
    match slot:
        case Unused(): return None
        case Row(n, name, long): return long


def record_of(t, d, name):
    return position(lambda slot: has_name(name, slot), slots_of(t, d))


def slot_at(t, d, k):
    return unwrap_or(slice_get(slots_of(t, d), k), Unused())


def inode_named(t, d, name):
    k = record_of(t, d, name)
    return None if k is None else inode_of_slot(slot_at(t, d, k))


def is_bare(t, d):
    return all(named_by(slot) is None for slot in slots_of(t, d))


def directories_above(t, most, d):
    if most == 0:
        return ()
    p = parent_of(t, d)
    return (d, *(() if p is None else directories_above(t, most - 1, p)))


def is_within(t, n, d):
    return n in directories_above(t, len(t.inodes), d)


# qx_model/Paths


def path_refusal(fault):
    match fault:
        case "Empty": return refusal.BadPath()
        case "TooLong": return refusal.BadPath()
        case "ZeroByte": return refusal.BadPath()
        case "NameTooLong": return refusal.NameTooLong()


def path_or(path):
    try:
        return path()
    except Err as fault:
        raise Err(path_refusal(fault.why)) from None


def parsed(bytes_):
    return path_or(lambda: path_of(bytes_))


Followed, Itself = LastLink = "Followed", "Itself"


def is_followed(last, rest):
    match last, rest:
        case "Followed", _: return True
        case "Itself", (): return False
        case "Itself", _: return True


To, Through = Lead = variants("To inode | Through target")


def lead_by(follow, n, body):
    match follow, body:
        case True, Link(target): return Through(target)
        case False, Link(target): return To(n)
        case _, Directory(slots, parent): return To(n)
        case _, File(content): return To(n)
        case _, Special(): return To(n)


def lead_to(t, follow, n):
    e = ok_or(entry_of(t, n), refusal.NoEntry())
    return lead_by(follow, n, e.body)


def lead_in(t, follow, d, parent, name):
    if name == dot_name:
        return To(d)
    if name == dots_name:
        return To(parent)
    return lead_to(t, follow, ok_or(inode_named(t, d, name), refusal.NoEntry()))


def lead_from(t, follow, at, name, body):
    match body:
        case Directory(slots, parent): return lead_in(t, follow, at, parent, name)
        case File(content): raise Err(refusal.NotDir())
        case Link(target): raise Err(refusal.NotDir())
        case Special(): raise Err(refusal.NotDir())


def lead(t, follow, at, name):
    e = ok_or(entry_of(t, at), refusal.NoEntry())
    return lead_from(t, follow, at, name, e.body)


def walk_by(t, last, jump, at, names):
    if names == ():
        return at
    name, *rest = names
    rest = tuple(rest)
    match lead(t, is_followed(last, rest), at, name):
        case To(n): return walk_by(t, last, jump, n, rest)
        case Through(target): return jump(at, target, rest)


def start_in(p, at):
    return 1 if p.absolute else at


def walk(links, t, last, at, names):
    def jump(at, target, rest):
        if links == 0:
            raise Err(refusal.LinkLoop())
        p = parsed(target)
        return walk(links - 1, t, last, start_in(p, at), p.names + rest)

    return walk_by(t, last, jump, at, names)


links_allowed = 16


def start_of_walk(p, base):
    if base is None:
        if p.absolute:
            return 1
        raise Err(refusal.NoEntry())
    return start_in(p, base)


def inode_at(t, base, last, bytes_):
    p = parsed(bytes_)
    from_ = start_of_walk(p, base)
    return walk(links_allowed, t, last, from_, p.names)


@dataclass(frozen=True)
class Named:
    parents: PathParts
    name: bytes


def parents_of(p):
    return PathParts(p.absolute, p.names[: max(len(p.names) - 1, 0)])


def named(p):
    name = ok_or(last_name(p), refusal.Reserved())
    refuse_if(is_dots(name), refusal.Reserved())
    return Named(parents_of(p), name)


def parent_at(t, base, n):
    from_ = start_of_walk(n.parents, base)
    d = walk(links_allowed, t, Followed, from_, n.parents.names)
    refuse_if(not is_directory(t, d), refusal.NotDir())
    return d


@dataclass(frozen=True)
class Place:
    directory: int
    name: bytes


def place_at(t, base, bytes_):
    p = parsed(bytes_)
    n = named(p)
    d = parent_at(t, base, n)
    return Place(d, n.name)


# qx_model/Edits


@dataclass(frozen=True)
class Leaf:
    """Leaves of an owner that are written together."""

    owner: tuple
    index: Numbers


@dataclass(frozen=True, eq=False)
class Edit:
    tree: Tree
    written: tuple


@dataclass(frozen=True)
class Setting:
    blocksize: int
    base: int | None
    moment: int


def unchanged(t):
    return Edit(t, ())


def writing(owner, leaves, e):
    return replace(e, written=e.written + (Leaf(owner, leaves),))


def putting(n, entry, e):
    return replace(e, tree=with_entry(e.tree, n, entry))


def altering(n, change, e):
    entry = entry_of(e.tree, n)
    return putting(n, None if entry is None else change(entry), e)


def attr_changed(moment):
    return lambda a: replace(a, ctime=moment)


def content_changed(moment):
    return lambda a: replace(a, mtime=moment, ctime=moment)


def with_attr(n, change, e):
    return altering(n, lambda x: replace(x, attr=change(x.attr)), e)


kind_unit = 4096
directory_mode = 0x41ED
file_mode = 0x81A4
link_mode = 0xA1FF


def new_attr(mode, moment):
    return Attr(mode=mode, uid=0, gid=0, ftime=moment, mtime=moment, atime=moment, ctime=moment)


def new_link(blocksize, moment, target):
    return Entry(
        attr=new_attr(link_mode, moment),
        size=len(target),
        present=range_with_len(0, ceil_div(len(target), blocksize)),
        body=Link(target),
    )


def new_inode(t):
    k = position(lambda e: e is None, t.inodes)
    return ok_or(None if k is None else k + 1, refusal.NoInodes())


def absent_number(t):
    return position_or_len(lambda k: k not in t.long_present, tuple(range_with_len(0, len(t.long_present))))


def number_for(t, name):
    return absent_number(t) if longest_short_name < len(name) else None


def with_place(xs, k, x):
    return slice_set(xs, k, x) if k < len(xs) else (*xs, x)


def with_long(blocksize, long, name, e):
    if long is None:
        return e
    k = long
    return writing(
        OfLongfile,
        Numbers.of([k]),
        replace(
            e,
            tree=replace(
                e.tree,
                long_names=with_place(e.tree.long_names, k, name),
                long_present=with_number(e.tree.long_present, k),
                long_size=max(e.tree.long_size, (k + 1) * blocksize),
            ),
        ),
    )


def without_long(long, e):
    if long is None:
        return e
    k = long
    return replace(
        e,
        tree=replace(
            e.tree,
            long_names=slice_set(e.tree.long_names, k, None),
            long_present=e.tree.long_present - Numbers.of([k]),
        ),
    )


def leaf_of_record(blocksize, k):
    return k * record_size // blocksize


def with_slots(blocksize, slots, parent, leaf):
    return lambda e: replace(
        e,
        size=record_size * len(slots),
        present=present_after(e.present, ceil_div(record_size * len(slots), blocksize), Numbers.of([leaf]), None),
        body=Directory(slots, parent),
    )


def writing_record(blocksize, d, k, slots, e):
    leaf = leaf_of_record(blocksize, k)
    parent = unwrap_or(parent_of(e.tree, d), d)
    return writing(OfInode(d), Numbers.of([leaf]), altering(d, with_slots(blocksize, slots, parent, leaf), e))


def slots_with(blocksize, slots, row):
    k = position_or_len(is_unused, slots)
    return slice_set(slots, k, row) if k < len(slots) else slots + (row,) + (Unused(),) * (blocksize // record_size - 1)


def add_row(s, d, n, name, e):
    long = number_for(e.tree, name)
    slots = slots_of(e.tree, d)
    return with_attr(
        d,
        content_changed(s.moment),
        writing_record(
            s.blocksize,
            d,
            position_or_len(is_unused, slots),
            slots_with(s.blocksize, slots, Row(n, name, long)),
            with_long(s.blocksize, long, name, e),
        ),
    )


def clear_row(s, d, k, e):
    return with_attr(
        d,
        content_changed(s.moment),
        writing_record(
            s.blocksize,
            d,
            k,
            slice_set(slots_of(e.tree, d), k, Unused()),
            without_long(long_of_slot(slot_at(e.tree, d, k)), e),
        ),
    )


def pointed(n, slot):
    match slot:
        case Unused(): return Unused()
        case Row(old, name, long): return Row(n, name, long)


def point_row(s, d, k, n, e):
    return with_attr(
        d,
        content_changed(s.moment),
        writing_record(s.blocksize, d, k, slice_set(slots_of(e.tree, d), k, pointed(n, slot_at(e.tree, d, k))), e),
    )


def lose_row(s, n, e):
    return putting(n, None, e) if links_of(e.tree, n) == 0 else with_attr(n, attr_changed(s.moment), e)


def with_parent(s, n, parent, e):
    slots = slots_of(e.tree, n)
    k = position_or_len(lambda slot: has_name(dots_name, slot), slots)
    leaf = leaf_of_record(s.blocksize, k)
    return writing(
        OfInode(n),
        Numbers.of([leaf]),
        altering(n, with_slots(s.blocksize, slice_set(slots, k, pointed(parent, slot_at(e.tree, n, k))), parent, leaf), e),
    )


def move_parent(s, n, from_, to, e):
    return with_parent(s, n, to, e) if is_directory(e.tree, n) and not from_ == to else e


# qx_model/Effects

Answers, Edits = Effect = variants("Answers reply | Edits is_removing edit")


def done(e):
    return Edits(False, e)


def removed(e):
    return Edits(True, e)


def effect_reply(effect):
    match effect:
        case Answers(r): return r
        case Edits(is_removing, e): return reply.Done()


# qx_model/Answering


def row_view(slot):
    match slot:
        case Unused(): return None
        case Row(n, name, long): return None if is_dots(name) else RowView(n, name)


def list_(s, t, path):
    n = inode_at(t, s.base, Followed, path)
    refuse_if(not is_directory(t, n), refusal.NotDir())
    return Answers(reply.Rows(tuple(v for v in map(row_view, slots_of(t, n)) if v is not None)))


def kind_number(body):
    match body:
        case Directory(slots, parent): return 1
        case File(content): return 2
        case Link(target): return 3
        case Special(): return 4


def stat_view(t, n, e):
    return StatView(kind=kind_number(e.body), inode=n, size=e.size, links=links_of(t, n), attr=e.attr)


def stat(s, t, path):
    n = inode_at(t, s.base, Itself, path)
    e = ok_or(entry_of(t, n), refusal.NoEntry())
    return Answers(reply.Stat(stat_view(t, n, e)))


def content_of_body(body):
    match body:
        case Directory(slots, parent): raise Err(refusal.IsDir())
        case File(content): return content
        case Link(target): raise Err(refusal.WrongKind())
        case Special(): raise Err(refusal.WrongKind())


@dataclass(frozen=True)
class FileAt:
    inode: int
    entry: Entry
    content: Bytes


def file_in(t, n):
    e = ok_or(entry_of(t, n), refusal.NoEntry())
    content = content_of_body(e.body)
    return FileAt(n, e, content)


def file_at(s, t, path):
    return file_in(t, inode_at(t, s.base, Followed, path))


def read(s, t, path, at, count):
    f = file_at(s, t, path)
    return Answers(reply.Bytes(slice_range(f.content, at, at + count)))


def target_of_body(body):
    match body:
        case Link(target): return target
        case Directory(slots, parent): raise Err(refusal.WrongKind())
        case File(content): raise Err(refusal.WrongKind())
        case Special(): raise Err(refusal.WrongKind())


def read_link(s, t, path):
    n = inode_at(t, s.base, Itself, path)
    e = ok_or(entry_of(t, n), refusal.NoEntry())
    target = target_of_body(e.body)
    return Answers(reply.Target(target))


# qx_model/NewNames


def new_place(s, t, path):
    p = place_at(t, s.base, path)
    refuse_if(inode_named(t, p.directory, p.name) is not None, refusal.Exists())
    return p


def made_at(s, t, p, n, e, leaves):
    return writing(OfInode(n), leaves, add_row(s, p.directory, n, p.name, putting(n, e, unchanged(t))))


def empty_file(moment):
    return Entry(attr=new_attr(file_mode, moment), size=0, present=Numbers(), body=File(Bytes()))


def create(s, t, path):
    p = new_place(s, t, path)
    n = new_inode(t)
    return done(made_at(s, t, p, n, empty_file(s.moment), Numbers()))


def mkdir(s, t, path):
    p = new_place(s, t, path)
    n = new_inode(t)
    return done(made_at(s, t, p, n, new_directory(s.blocksize, n, p.directory, s.moment), Numbers.of([0])))


def symlink(s, t, target, path):
    parsed(target)
    p = new_place(s, t, path)
    n = new_inode(t)
    x = new_link(s.blocksize, s.moment, target)
    return done(made_at(s, t, p, n, x, x.present))


def link(s, t, old, new):
    n = inode_at(t, s.base, Itself, old)
    refuse_if(is_directory(t, n), refusal.IsDir())
    refuse_if(is_special(t, n), refusal.WrongKind())
    p = new_place(s, t, new)
    return done(with_attr(n, attr_changed(s.moment), add_row(s, p.directory, n, p.name, unchanged(t))))


# qx_model/LostNames


@dataclass(frozen=True)
class RowAt:
    directory: int
    record_number: int
    inode: int


def row_in(t, d, k):
    n = inode_of_slot(slot_at(t, d, k))
    return None if n is None else RowAt(d, k, n)


def row_at(t, p):
    k = record_of(t, p.directory, p.name)
    return None if k is None else row_in(t, p.directory, k)


def without_row(s, t, row):
    return lose_row(s, row.inode, clear_row(s, row.directory, row.record_number, unchanged(t)))


def remove(s, t, path):
    p = place_at(t, s.base, path)
    row = ok_or(row_at(t, p), refusal.NoEntry())
    refuse_if(is_directory(t, row.inode), refusal.IsDir())
    return removed(without_row(s, t, row))


def remove_dir(s, t, path):
    p = place_at(t, s.base, path)
    row = ok_or(row_at(t, p), refusal.NoEntry())
    refuse_if(not is_directory(t, row.inode), refusal.NotDir())
    refuse_if(not is_bare(t, row.inode), refusal.NotEmpty())
    return removed(without_row(s, t, row))


def moved(s, from_, d, e):
    return with_attr(from_.inode, attr_changed(s.moment), move_parent(s, from_.inode, from_.directory, d, e))


def moved_to(s, t, from_, to):
    return moved(
        s,
        from_,
        to.directory,
        add_row(s, to.directory, from_.inode, to.name, clear_row(s, from_.directory, from_.record_number, unchanged(t))),
    )


def moved_onto(s, t, from_, to):
    return moved(
        s,
        from_,
        to.directory,
        lose_row(
            s,
            to.inode,
            clear_row(
                s,
                from_.directory,
                from_.record_number,
                point_row(s, to.directory, to.record_number, from_.inode, unchanged(t)),
            ),
        ),
    )


def refuse_into(t, from_, d):
    refuse_if(is_directory(t, from_.inode) and is_within(t, from_.inode, d), refusal.IntoItself())


def refuse_onto(t, m, n):
    refuse_if(is_directory(t, n) and not is_directory(t, m), refusal.IsDir())
    refuse_if(is_directory(t, m) and not is_directory(t, n), refusal.NotDir())
    refuse_if(is_directory(t, n) and not is_bare(t, n), refusal.NotEmpty())


def replace_(s, t, from_, old):
    refuse_into(t, from_, old.directory)
    refuse_onto(t, from_.inode, old.inode)
    return done(moved_onto(s, t, from_, old))


def rename_to(s, t, from_, to, old):
    if old is None:
        refuse_into(t, from_, to.directory)
        return done(moved_to(s, t, from_, to))
    return Answers(reply.Done()) if old.inode == from_.inode else replace_(s, t, from_, old)


def rename(s, t, from_, to):
    p = parsed(from_)
    q = parsed(to)
    old = named(p)
    new = named(q)
    d = parent_at(t, s.base, old)
    row = ok_or(row_at(t, Place(d, old.name)), refusal.NoEntry())
    c = parent_at(t, s.base, new)
    place = Place(c, new.name)
    return rename_to(s, t, row, place, row_at(t, place))


# qx_model/Contents


def with_content(blocksize, size, content, leaves):
    return lambda e: replace(
        e,
        size=size,
        present=present_after(e.present, ceil_div(size, blocksize), leaves, None),
        body=File(content),
    )


def rewriting(s, t, f, size, content, leaves):
    return with_attr(
        f.inode,
        content_changed(s.moment),
        writing(OfInode(f.inode), leaves, altering(f.inode, with_content(s.blocksize, size, content, leaves), unchanged(t))),
    )


def leaves_of_range(blocksize, at, count):
    if count == 0:
        return Numbers()
    last = count - 1
    first = at // blocksize
    return range_with_len(first, (at + last) // blocksize + 1 - first)


def written_at(s, t, f, at, bytes_):
    count = len(bytes_)
    if count == 0:
        return with_attr(f.inode, content_changed(s.moment), unchanged(t))
    size = max(f.entry.size, at + count)
    return rewriting(
        s, t, f, size, put_at(resized(f.content, size), at, bytes_), leaves_of_range(s.blocksize, at, count)
    )


def write(s, t, path, at, bytes_):
    f = file_at(s, t, path)
    refuse_if(greatest_end < at + len(bytes_), refusal.FileTooBig())
    return done(written_at(s, t, f, at, bytes_))


def cut_leaves(blocksize, e, size):
    if size < e.size and (not size % blocksize == 0 and size // blocksize in e.present):
        return Numbers.of([size // blocksize])
    return Numbers()


def truncate(s, t, path, size):
    f = file_at(s, t, path)
    refuse_if(greatest_end < size, refusal.FileTooBig())
    return Edits(
        size < f.entry.size,
        rewriting(s, t, f, size, resized(f.content, size), cut_leaves(s.blocksize, f.entry, size)),
    )


def with_mode(moment, mode):
    return lambda a: replace(a, mode=a.mode // kind_unit * kind_unit + mode % kind_unit, ctime=moment)


def with_owner(moment, uid, gid):
    return lambda a: replace(a, uid=uid, gid=gid, ctime=moment)


def with_times(moment, atime, mtime):
    return lambda a: replace(a, atime=atime, mtime=mtime, ctime=moment)


def change_attr(s, t, path, change):
    n = inode_at(t, s.base, Followed, path)
    return done(with_attr(n, change, unchanged(t)))


# qx_model/Operate


def operate(s, t, o):
    match o:
        case op.List(path): return list_(s, t, path)
        case op.Stat(path): return stat(s, t, path)
        case op.Read(path, at, count): return read(s, t, path, at, count)
        case op.Create(path): return create(s, t, path)
        case op.Mkdir(path): return mkdir(s, t, path)
        case op.Write(path, at, bytes_): return write(s, t, path, at, bytes_)
        case op.Fill(path, at, count, byte): return write(s, t, path, at, replicate(count, byte))
        case op.Truncate(path, size): return truncate(s, t, path, size)
        case op.Remove(path): return remove(s, t, path)
        case op.RemoveDir(path): return remove_dir(s, t, path)
        case op.Rename(from_, to): return rename(s, t, from_, to)
        case op.Link(old, new): return link(s, t, old, new)
        case op.Symlink(target, new): return symlink(s, t, target, new)
        case op.ReadLink(path): return read_link(s, t, path)
        case op.Chmod(path, mode): return change_attr(s, t, path, with_mode(s.moment, mode))
        case op.Chown(path, uid, gid): return change_attr(s, t, path, with_owner(s.moment, uid, gid))
        case op.Utime(path, atime, mtime): return change_attr(s, t, path, with_times(s.moment, atime, mtime))


# qx_model/TreePositions


def Position(owner, level, index):
    return (owner, level, index)


@dataclass(frozen=True)
class Positions:
    """A list of positions, by owner and level: those of a fill may be very many."""

    parts: tuple

    def count(self):
        return sum(indices.count() for _, _, indices in self.parts)

    def __iter__(self):
        return (Position(owner, level, index) for owner, level, indices in self.parts for index in indices)


@lru_cache(None)
def empty_shape(blocksize):
    return shape_of(blocksize, 0, Numbers())


def entry_shape(blocksize, e):
    if e is None:
        return empty_shape(blocksize)
    return shape_of(blocksize, e.size, e.present)


def shape_in(blocksize, t, o):
    match o:
        case ("OfLongfile",): return shape_of(blocksize, t.long_size, t.long_present)
        case ("OfInode", n): return entry_shape(blocksize, entry_of(t, n))
        case ("OfInodes",): return empty_shape(blocksize)
        case ("OfFurther", k): return empty_shape(blocksize)


def owners_of(t):
    return (OfLongfile, *(OfInode(n) for n in range_with_len(1, len(t.inodes))))


def positions_by(f, o, s):
    return Positions(tuple((o, k, f(k)) for k in range_with_len(0, s.levels + 1)))


def positions_in_node(blocksize, o, s):
    return positions_by(lambda k: at_level(blocksize, s, k), o, s)


@once
def positions_of(blocksize, t):
    return tuple(p for o in owners_of(t) for p in positions_in_node(blocksize, o, shape_in(blocksize, t, o)))


# qx_model/TreeTouch


def written_in(o, leaves):
    return Numbers.in_runs(run for l in leaves if l.owner == o for run in l.index.runs)


def private_in(private, o):
    return lambda k, j: private(Position(o, k, j))


def fresh_in_node(blocksize, old, e, private, o):
    before = shape_in(blocksize, old, o)
    after = shape_in(blocksize, e.tree, o)
    written = written_in(o, e.written)
    if before == after and not written.runs:
        return Positions(())  # a node that is left alone takes no block
    return positions_by(lambda k: fresh_at(blocksize, before, after, written, private_in(private, o), k), o, after)


def fresh_positions(blocksize, old, e, private):
    return Positions(
        tuple(part for o in owners_of(e.tree) for part in fresh_in_node(blocksize, old, e, private, o).parts)
    )


# qx_model/Machine


@dataclass(frozen=True, eq=False)
class Copy:
    tree: Tree
    ids: dict
    kept: dict = field(default_factory=dict, init=False, repr=False)


@dataclass(frozen=True, eq=False)
class Snapshot:
    copy: Copy
    serial: int


@dataclass(frozen=True, eq=False)
class Frozen:
    snapshot: Snapshot
    due: int


@dataclass(frozen=True)
class Session:
    directory: int | None
    holds: bool


session_count = 16


@dataclass(frozen=True)
class Volume:
    blocksize: int
    blocks: int
    user: int
    system_leaves: int
    inodes: int
    is_read_only: bool
    free_without_ids: int | None


@dataclass(frozen=True, eq=False)
class Machine:
    volume: Volume
    working: Copy
    durable: Snapshot
    frozen: Frozen | None
    next_id: int
    last_begin: int
    changed: bool
    sessions: tuple


def first_ids(blocksize, t):
    return {p: rank for rank, p in enumerate(positions_of(blocksize, t))}


def first_copy(blocksize, t):
    return Copy(tree=t, ids=first_ids(blocksize, t))


def start_of(v, t, serial, moment):
    return Machine(
        volume=v,
        working=first_copy(v.blocksize, t),
        durable=Snapshot(copy=first_copy(v.blocksize, t), serial=serial),
        frozen=None,
        next_id=len(positions_of(v.blocksize, t)),
        last_begin=moment,
        changed=False,
        sessions=(Session(directory=1, holds=False),) * session_count,
    )


def directory_of(s, k):
    x = slice_get(s.sessions, k)
    return None if x is None else x.directory


def setting_of(s, k, moment):
    return Setting(blocksize=s.volume.blocksize, base=directory_of(s, k), moment=moment)


def hold_count(s):
    return sum(x.holds for x in s.sessions)


def changed_at(k, change, xs):
    return tuple(change(x) if j == k else x for j, x in enumerate(xs))


def with_session(k, change, s):
    return replace(s, sessions=changed_at(k, change, s.sessions))


def gone_to(d):
    return lambda x: replace(x, directory=d)


def holding(b):
    return lambda x: replace(x, holds=b)


def without_holds(s):
    return replace(s, sessions=tuple(map(holding(False), s.sessions)))


def still_live(t, d):
    if d is None:
        return None
    return d if is_live(t, d) else None


def left_in(t):
    return lambda x: replace(x, directory=still_live(t, x.directory))


# qx_model/Space


@once
def ids_of(blocksize, c):
    return tuple(c.ids[p] for p in positions_of(blocksize, c.tree))


def ids_of_frozen(blocksize, p):
    if p is None:
        return ()
    return ids_of(blocksize, p.snapshot.copy)


def working_ids(s):
    return ids_of(s.volume.blocksize, s.working)


def durable_ids(s):
    return ids_of(s.volume.blocksize, s.durable.copy)


def snapshot_ids(s):
    return ids_of_frozen(s.volume.blocksize, s.frozen) + durable_ids(s)


def different_count(xs):
    return len(set(xs))


def held_count(s):
    return different_count(working_ids(s) + snapshot_ids(s))


def free_count(s):
    return unwrap_or(s.volume.free_without_ids, max(s.volume.user - held_count(s), 0))


def space_of(s):
    return SpaceView(
        blocks=s.volume.blocks,
        user=s.volume.user,
        free=free_count(s),
        inodes=s.volume.inodes,
        free_inodes=max(s.volume.inodes - live_count(s.working.tree), 0),
        serial=s.durable.serial,
    )


def is_private(s):
    others = set(snapshot_ids(s))
    return lambda p: s.working.ids[p] not in others


def fresh_in(s, e):
    return fresh_positions(s.volume.blocksize, s.working.tree, e, is_private(s))


def need_of(s, e):
    return fresh_in(s, e).count()


def renewed(next_id, fresh, ids):
    return ids | {p: next_id + rank for rank, p in enumerate(fresh)}


def with_edit(e, s):
    fresh = fresh_in(s, e)
    return replace(
        s,
        working=Copy(tree=e.tree, ids=renewed(s.next_id, fresh, s.working.ids)),
        next_id=s.next_id + fresh.count(),
    )


# qx_model/SmallVolume


def made_with(num_inodes):
    return empty_tree(512, num_inodes, 1000)


made = made_with(16)
small_volume = Volume(
    blocksize=512, blocks=96, user=86, system_leaves=5, inodes=16, is_read_only=False, free_without_ids=None
)


def mounted(serial, moment):
    return start_of(small_volume, made, serial, moment)


def small(moment):
    return mounted(2, moment)


# qx_model/Snapshots

Begin, Step = Move = "Begin", "Step"


def unsaved_count(s):
    durable = set(durable_ids(s))
    return sum(i not in durable for i in working_ids(s))


def steps_wanted(s):
    return unsaved_count(s) + s.volume.system_leaves + 3


def begun(moment, s):
    return replace(
        s,
        frozen=Frozen(snapshot=Snapshot(copy=s.working, serial=s.durable.serial + 1), due=steps_wanted(s)),
        changed=False,
        last_begin=moment,
    )


def step_to(is_last, s, p):
    if is_last:
        return replace(s, durable=p.snapshot, frozen=None)
    return replace(s, frozen=replace(p, due=p.due - 1))


def is_last_step(p):
    return p.due <= 1


def stepped(s, p):
    if p is None:
        return s
    return step_to(is_last_step(p), s, p)


def after_move(moment, s, m):
    match m:
        case "Begin": return begun(moment, s)
        case "Step": return stepped(s, s.frozen)


def after_moves(moment, s, moves):
    for m in moves:
        s = after_move(moment, s, m)
    return s


def told_if(is_last, p):
    return (notice.Snapshot(p.snapshot.serial),) if is_last else ()


def told_by_step(p):
    if p is None:
        return ()
    return told_if(is_last_step(p), p)


def told_by(s, m):
    match m:
        case "Begin": return ()
        case "Step": return told_by_step(s.frozen)


def told_along(moment, s, moves):
    told = ()
    for m in moves:
        told += told_by(s, m)
        s = after_move(moment, s, m)
    return told


def due_of(p):
    return 0 if p is None else p.due


def finishing(s):
    return (Step,) * due_of(s.frozen)


def whole_snapshot(s):
    return (Begin,) + (Step,) * steps_wanted(s)


interval = 10


def is_time_to_begin(s, moment):
    return not s.volume.is_read_only and (
        s.frozen is None
        and (hold_count(s) == 0 and (s.changed and interval <= max(moment - s.last_begin, 0)))
    )


background_limit = 4


def background_count(s):
    return min(due_of(s.frozen), background_limit)


# qx_model/Decisions

Refuses, Fits, Lacks = Decision = variants("Refuses refusal | Fits effect | Lacks need free")


def frozen_serial(p):
    return 0 if p is None else p.snapshot.serial


def last_serial(s):
    return max(s.durable.serial, frozen_serial(s.frozen))


def is_serial_end(s):
    return last_serial(s) == 2**64 - 1


def decided_by_room(is_removing, e, need, free):
    return Fits(Edits(is_removing, e)) if fits(is_removing, need, free) else Lacks(need, free)


def decided(s, operate_):
    try:
        effect = operate_()
    except Err as r:
        return Refuses(r.why)
    match effect:
        case Answers(r): return Fits(Answers(r))
        case Edits(is_removing, e): return decided_by_room(is_removing, e, need_of(s, e), free_count(s))


def decision(s, k, moment, o):
    if changes(o) and is_serial_end(s):
        return Refuses(refusal.SerialEnd())
    return decided(s, lambda: operate(setting_of(s, k, moment), s.working.tree, o))


def is_lacking(d):
    return isinstance(d, Lacks)


@dataclass(frozen=True, eq=False)
class Attempt:
    moves: tuple
    machine: Machine
    decision: object


def first_attempt(s, k, moment, o):
    return Attempt(moves=(), machine=s, decision=decision(s, k, moment, o))


def after_more(k, moment, o, a, more):
    s = after_moves(moment, a.machine, more)
    return Attempt(moves=a.moves + more, machine=s, decision=decision(s, k, moment, o))


def after_finish(k, moment, o, a):
    if is_lacking(a.decision) and a.machine.frozen is not None:
        return after_more(k, moment, o, a, finishing(a.machine))
    return a


def after_snapshot(k, moment, o, a):
    if is_lacking(a.decision) and (hold_count(a.machine) == 0 and a.machine.changed):
        return after_more(k, moment, o, a, whole_snapshot(a.machine))
    return a


def attempt(s, k, moment, o):
    return after_snapshot(k, moment, o, after_finish(k, moment, o, first_attempt(s, k, moment, o)))


# qx_model/Plans

ending = choice("Stays | Becomes edit | GoesTo k directory | Holds k b")


@dataclass(frozen=True, eq=False)
class Plan:
    from_: Machine
    moves: tuple
    reply: object
    ending: object


def after_edit(e, s):
    return replace(with_edit(e, s), changed=True, sessions=tuple(map(left_in(e.tree), s.sessions)))


def after_ending(end, s):
    match end:
        case ending.Stays(): return s
        case ending.Becomes(e): return after_edit(e, s)
        case ending.GoesTo(k, d): return with_session(k, gone_to(d), s)
        case ending.Holds(k, b): return with_session(k, holding(b), s)


def reply_only(s, r):
    return Plan(from_=s, moves=(), reply=r, ending=ending.Stays())


def refused(s, r):
    return reply_only(s, reply.Refused(r))


def done_with(s, e):
    return Plan(from_=s, moves=(), reply=reply.Done(), ending=e)


def effect_ending(effect):
    match effect:
        case Answers(r): return ending.Stays()
        case Edits(is_removing, e): return ending.Becomes(e)


def decision_reply(d):
    match d:
        case Refuses(r): return reply.Refused(r)
        case Fits(e): return effect_reply(e)
        case Lacks(need, free): return reply.Refused(refusal.NoSpace(need, free))


def decision_ending(d):
    match d:
        case Refuses(r): return ending.Stays()
        case Fits(e): return effect_ending(e)
        case Lacks(need, free): return ending.Stays()


def plan_of(s, a):
    return Plan(from_=s, moves=a.moves, reply=decision_reply(a.decision), ending=decision_ending(a.decision))


def operating(s, k, moment, o):
    if changes(o) and s.volume.is_read_only:
        return refused(s, refusal.ReadOnly())
    return plan_of(s, attempt(s, k, moment, o))


def snapshot_if_changed(s):
    return whole_snapshot(s) if s.changed else ()


def sync_moves(moment, s):
    return finishing(s) + snapshot_if_changed(after_moves(moment, s, finishing(s)))


def syncing(moment, s):
    if hold_count(s) == 0:
        return Plan(from_=s, moves=sync_moves(moment, s), reply=reply.Done(), ending=ending.Stays())
    return refused(s, refusal.Held(hold_count(s)))


def syncing_path(moment, s, leads):
    try:
        leads()
    except Err as r:
        return refused(s, r.why)
    return syncing(moment, s)


def directory_at(s, k, path):
    n = inode_at(s.working.tree, directory_of(s, k), Followed, path)
    refuse_if(not is_directory(s.working.tree, n), refusal.NotDir())
    return n


def changing_directory(s, k, leads):
    try:
        d = leads()
    except Err as r:
        return refused(s, r.why)
    return done_with(s, ending.GoesTo(k, d))


def planned(s, k, moment, a):
    match a:
        case act.Op(o): return operating(s, k, moment, o)
        case act.Cd(path): return changing_directory(s, k, lambda: directory_at(s, k, path))
        case act.Df(): return reply_only(s, reply.Space(space_of(s)))
        case act.Hold(): return done_with(s, ending.Holds(k, True))
        case act.Unhold(): return done_with(s, ending.Holds(k, False))
        case act.Sync(): return syncing(moment, s)
        case act.Fsync(path):
            return syncing_path(moment, s, lambda: inode_at(s.working.tree, directory_of(s, k), Itself, path))
        case act.Tick(): return reply_only(s, reply.Done())
        case act.End(): return syncing(moment, without_holds(s))


def is_end(a):
    return isinstance(a, act.End)


def lacks_session(e):
    return session_count <= e.session and not is_end(e.act)


def plan(s, e):
    return refused(s, refusal.NoSession()) if lacks_session(e) else planned(s, e.session, e.moment, e.act)


# qx_model/Next

StepFails, ReadFails, MemoryFails = Cause = "StepFails", "ReadFails", "MemoryFails"


@dataclass(frozen=True)
class ActFault:
    moves: int
    cause: str


@dataclass(frozen=True)
class Faults:
    begin: bool
    act: ActFault | None
    background: int | None


no_faults = Faults(begin=False, act=None, background=None)


@dataclass(frozen=True, eq=False)
class Transition:
    machine: Machine
    turn: Turn


def begun_if(is_time, fails, moment, s):
    match is_time, fails:
        case False, _: return s
        case True, False: return begun(moment, s)
        case True, True: return s


def timed_begin(fails, moment, s):
    return begun_if(is_time_to_begin(s, moment), fails, moment, s)


def told_by_begin(fails):
    return (notice.Memory(),) if fails else ()


@dataclass(frozen=True, eq=False)
class ActResult:
    machine: Machine
    told: tuple
    reply: object
    is_step_failed: bool


def refusal_of(cause):
    match cause:
        case "StepFails": return refusal.Device()
        case "ReadFails": return refusal.Device()
        case "MemoryFails": return refusal.NoMemory()


def is_step(cause):
    return cause == StepFails


def moves_made(fault, p):
    return p.moves if fault is None else p.moves[: fault.moves]


def after_act(fault, moment, p):
    if fault is None:
        return ActResult(
            machine=after_ending(p.ending, after_moves(moment, p.from_, p.moves)),
            told=told_along(moment, p.from_, p.moves),
            reply=p.reply,
            is_step_failed=False,
        )
    return ActResult(
        machine=after_moves(moment, p.from_, moves_made(fault, p)),
        told=told_along(moment, p.from_, moves_made(fault, p)),
        reply=reply.Refused(refusal_of(fault.cause)),
        is_step_failed=is_step(fault.cause),
    )


def steps_made(is_step_failed, background, s):
    match is_step_failed, background:
        case True, _: return 0
        case False, None: return background_count(s)
        case False, good: return good


def background_moves(background, a):
    return (Step,) * steps_made(a.is_step_failed, background, a.machine)


def told_by_fault(background):
    return () if background is None else (notice.Device(),)


def plan_under(f, s, e):
    return plan(timed_begin(f.begin, e.moment, s), e)


def act_result(f, s, e):
    return after_act(f.act, e.moment, plan_under(f, s, e))


def next_under(f, s, e):
    a = act_result(f, s, e)
    steps = background_moves(f.background, a)
    return Transition(
        machine=after_moves(e.moment, a.machine, steps),
        turn=Turn(
            reply=a.reply,
            notices=told_by_begin(f.begin)
            + (a.told + (told_along(e.moment, a.machine, steps) + told_by_fault(f.background))),
        ),
    )


def next_(s, e):
    return next_under(no_faults, s, e)


# The types of the code of qx_words

verb = choice(
    "List | Stat | ReadLink | Read | Create | Mkdir | Write | Fill | Truncate | Remove | RemoveDir | "
    "Rename | Link | Symlink | Chmod | Chown | Utime | Cd | Df | Hold | Unhold | Sync | Fsync | Tick | "
    "Quit"
)
argument = choice("Path | Other | At | Count | FillCount | Byte | Mode | Uid | Gid | Atime | Mtime")
fault = choice("BadLine at | NoMemory")


@dataclass(frozen=True)
class Arguments:
    path: bytes
    other: bytes
    at: int
    count: int
    fill: int
    byte: int
    mode: int
    uid: int
    gid: int
    atime: int
    mtime: int


@dataclass(frozen=True)
class Line:
    session: int
    act: object
    quit: bool


# qx_words/ByteWords


def is_plain(b):
    return (0x21 <= b <= 0x7E and not b == 92) or 0x80 <= b <= 0xFF


def hex_value(c):
    if 48 <= c <= 57:
        return c - 48
    if 97 <= c <= 102:
        return c - 87
    if 65 <= c <= 70:
        return c - 55
    return None


# qx_words/Numbers


def is_octal_digit(c):
    return 48 <= c <= 55


# qx_words/Commands


class Commands:
    @dataclass(frozen=True)
    class Row:
        name: bytes
        arguments: tuple

    @staticmethod
    def row(name, *arguments):
        return Commands.Row(name, tuple(a() for a in arguments))


def row_of(v):
    row = Commands.row
    match v:
        case verb.List(): return row(b"ls", argument.Path)
        case verb.Stat(): return row(b"stat", argument.Path)
        case verb.ReadLink(): return row(b"readlink", argument.Path)
        case verb.Read(): return row(b"cat", argument.Path, argument.At, argument.Count)
        case verb.Create(): return row(b"create", argument.Path)
        case verb.Mkdir(): return row(b"mkdir", argument.Path)
        case verb.Write(): return row(b"write", argument.Path, argument.At, argument.Other)
        case verb.Fill(): return row(b"fill", argument.Path, argument.At, argument.FillCount, argument.Byte)
        case verb.Truncate(): return row(b"truncate", argument.Path, argument.At)
        case verb.Remove(): return row(b"rm", argument.Path)
        case verb.RemoveDir(): return row(b"rmdir", argument.Path)
        case verb.Rename(): return row(b"mv", argument.Path, argument.Other)
        case verb.Link(): return row(b"ln", argument.Path, argument.Other)
        case verb.Symlink(): return row(b"symlink", argument.Path, argument.Other)
        case verb.Chmod(): return row(b"chmod", argument.Path, argument.Mode)
        case verb.Chown(): return row(b"chown", argument.Path, argument.Uid, argument.Gid)
        case verb.Utime(): return row(b"utime", argument.Path, argument.Atime, argument.Mtime)
        case verb.Cd(): return row(b"cd", argument.Path)
        case verb.Df(): return row(b"df")
        case verb.Hold(): return row(b"hold")
        case verb.Unhold(): return row(b"unhold")
        case verb.Sync(): return row(b"sync")
        case verb.Fsync(): return row(b"fsync", argument.Path)
        case verb.Tick(): return row(b"tick")
        case verb.Quit(): return row(b"quit")


@lru_cache(None)
def name_of(v):
    return row_of(v).name


@lru_cache(None)
def arguments_of(v):
    return row_of(v).arguments


no_arguments = Arguments(
    path=b"", other=b"", at=0, count=0, fill=0, byte=0, mode=0, uid=0, gid=0, atime=0, mtime=0
)


def act_of(v, a):
    match v:
        case verb.List(): return act.Op(op.List(a.path))
        case verb.Stat(): return act.Op(op.Stat(a.path))
        case verb.ReadLink(): return act.Op(op.ReadLink(a.path))
        case verb.Read(): return act.Op(op.Read(a.path, a.at, a.count))
        case verb.Create(): return act.Op(op.Create(a.path))
        case verb.Mkdir(): return act.Op(op.Mkdir(a.path))
        case verb.Write(): return act.Op(op.Write(a.path, a.at, a.other))
        case verb.Fill(): return act.Op(op.Fill(a.path, a.at, a.fill, a.byte))
        case verb.Truncate(): return act.Op(op.Truncate(a.path, a.at))
        case verb.Remove(): return act.Op(op.Remove(a.path))
        case verb.RemoveDir(): return act.Op(op.RemoveDir(a.path))
        case verb.Rename(): return act.Op(op.Rename(a.path, a.other))
        case verb.Link(): return act.Op(op.Link(a.path, a.other))
        case verb.Symlink(): return act.Op(op.Symlink(a.path, a.other))
        case verb.Chmod(): return act.Op(op.Chmod(a.path, a.mode))
        case verb.Chown(): return act.Op(op.Chown(a.path, a.uid, a.gid))
        case verb.Utime(): return act.Op(op.Utime(a.path, a.atime, a.mtime))
        case verb.Cd(): return act.Cd(a.path)
        case verb.Df(): return act.Df()
        case verb.Hold(): return act.Hold()
        case verb.Unhold(): return act.Unhold()
        case verb.Sync(): return act.Sync()
        case verb.Fsync(): return act.Fsync(a.path)
        case verb.Tick(): return act.Tick()
        case verb.Quit(): return act.End()


verbs = (
    verb.List(),
    verb.Stat(),
    verb.ReadLink(),
    verb.Read(),
    verb.Create(),
    verb.Mkdir(),
    verb.Write(),
    verb.Fill(),
    verb.Truncate(),
    verb.Remove(),
    verb.RemoveDir(),
    verb.Rename(),
    verb.Link(),
    verb.Symlink(),
    verb.Chmod(),
    verb.Chown(),
    verb.Utime(),
    verb.Cd(),
    verb.Df(),
    verb.Hold(),
    verb.Unhold(),
    verb.Sync(),
    verb.Fsync(),
    verb.Tick(),
    verb.Quit(),
)


# qx_words/Lines


def line_by(session, a):
    return Line(session=session, act=a, quit=is_end(a))


line_limit = 8192


def lines_of(script):
    return tuple(line for line in script.split(b"\n") if not len(line) == 0)


# qx_words/Reading

part = choice("Whole | Escaped | Half high")
step = choice("Whole byte | Inside part | Ends | Fails")


@dataclass(frozen=True)
class Taken:
    value: object
    place: int


def taken(value, place):
    return Taken(value, place)


def bad(at):
    raise Err(fault.BadLine(at))


def first_digit(high):
    if high is None:
        return step.Fails()
    return step.Inside(part.Half(high))


def second_digit(high, low):
    if low is None:
        return step.Fails()
    return step.Whole(16 * high + low)


def step_of(p, at, stop, c):
    match p:
        case part.Whole():
            if is_plain(c) and at < stop:
                return step.Whole(c)
            return step.Inside(part.Escaped()) if c == 92 and at + 3 <= stop else step.Ends()
        case part.Escaped(): return first_digit(hex_value(c))
        case part.Half(high): return second_digit(high, hex_value(c))


def bytes_from(p, at, stop, bytes_):
    value = bytearray()
    for c in bytes_:
        match step_of(p, at, stop, c):
            case step.Whole(b):
                value.append(b)
                p = part.Whole()
            case step.Inside(q):
                p = q
            case step.Ends(): return taken(bytes(value), at)
            case step.Fails(): return bad(at)
        at += 1
    match p:
        case part.Whole(): return taken(bytes(value), at)
        case part.Escaped(): return bad(at)
        case part.Half(high): return bad(at)


def some_bytes(at, r):
    return bad(at) if r.value == b"" else r


def word_from(at, stop, bytes_):
    return some_bytes(at, bytes_from(part.Whole(), at, stop, bytes_))


def is_digit(c):
    return 48 <= c <= 57


def is_further_digit(limit, at, stop, n, c):
    return is_digit(c) and (at < stop and (0 < n and 10 * n + (c - 48) <= limit))


def digits_from(limit, at, stop, n, bytes_):
    for c in bytes_:
        if not is_further_digit(limit, at, stop, n, c):
            break
        at, n = at + 1, 10 * n + (c - 48)
    return Taken(n, at)


def first_digit_of(low, at, stop, bytes_):
    if bytes_ == b"":
        return None
    c = bytes_[0]
    return c - 48 if is_digit(c) and (at < stop and low <= c - 48) else None


def number_by(first, limit, at, stop, bytes_):
    if first is None:
        return bad(at)
    return digits_from(limit, at + 1, stop, first, bytes_[1:])


def number_from(low, limit, at, stop, bytes_):
    return number_by(first_digit_of(low, at, stop, bytes_), limit, at, stop, bytes_)


def octal_from(left, at, stop, m, bytes_):
    for c in bytes_:
        if not (is_octal_digit(c) and (at < stop and 0 < left)):
            break
        left, at, m = left - 1, at + 1, 8 * m + (c - 48)
    return Taken(m, at)


def some_digits(at, r):
    return bad(at) if r.place == at else r


def mode_from(at, stop, bytes_):
    return some_digits(at, octal_from(4, at, stop, 0, bytes_))


def with_bytes(f, r):
    return taken(f(r.value), r.place)


class Reading:
    @staticmethod
    def with_number(f, r):
        return taken(f(r.value), r.place)


def argument_from(x, at, stop, bytes_, a):
    match x:
        case argument.Path(): return with_bytes(lambda w: replace(a, path=w), word_from(at, stop, bytes_))
        case argument.Other(): return with_bytes(lambda w: replace(a, other=w), word_from(at, stop, bytes_))
        case argument.At(): return Reading.with_number(lambda n: replace(a, at=n), number_from(0, 2**64 - 1, at, stop, bytes_))
        case argument.Count():
            return Reading.with_number(lambda n: replace(a, count=n), number_from(0, 65536, at, stop, bytes_))
        case argument.FillCount():
            return Reading.with_number(lambda n: replace(a, fill=n), number_from(1, 2**48, at, stop, bytes_))
        case argument.Byte(): return Reading.with_number(lambda n: replace(a, byte=n), number_from(0, 255, at, stop, bytes_))
        case argument.Mode(): return Reading.with_number(lambda n: replace(a, mode=n), mode_from(at, stop, bytes_))
        case argument.Uid():
            return Reading.with_number(lambda n: replace(a, uid=n), number_from(0, 2**32 - 1, at, stop, bytes_))
        case argument.Gid():
            return Reading.with_number(lambda n: replace(a, gid=n), number_from(0, 2**32 - 1, at, stop, bytes_))
        case argument.Atime():
            return Reading.with_number(lambda n: replace(a, atime=n), number_from(0, 2**32 - 1, at, stop, bytes_))
        case argument.Mtime():
            return Reading.with_number(lambda n: replace(a, mtime=n), number_from(0, 2**32 - 1, at, stop, bytes_))


def space_at(at, bytes_):
    if bytes_ == b"":
        return bad(at)
    return at + 1 if bytes_[0] == 32 else bad(at)


def arguments_from(wanted, at, line, a):
    if wanted == ():
        return taken(a, at)
    x, *xs = wanted
    p = space_at(at, line[at:])
    t = argument_from(x, p, line_limit - 2 * len(xs), line[p:], a)
    return arguments_from(tuple(xs), t.place, line, t.value)


def first_word(bytes_):
    return bytes_.split(b" ", 1)[0]


def shared(xs, bytes_):
    return position_or_len(lambda pair: not pair[0] == pair[1], tuple(zip(xs, bytes_)))


def furthest(bytes_):
    most = 0
    for v in verbs:
        most = max(most, shared(name_of(v), bytes_))
    return most


def verb_named(name):
    return next((v for v in verbs if name_of(v) == name), None)


def ended(value, at, line):
    return value if at == len(line) else bad(at)


def is_list(v):
    return isinstance(v, verb.List)


def act_from(v, at, line):
    if is_list(v) and at == len(line):
        return act.Op(op.List(b"."))
    t = arguments_from(arguments_of(v), at, line, no_arguments)
    return ended(act_of(v, t.value), t.place, line)


def command_by(v, at, line):
    if v is None:
        return bad(at + furthest(line[at:]))
    return act_from(v, at + len(name_of(v)), line)


def command_from(at, line):
    return command_by(verb_named(first_word(line[at:])), at, line)


def session_from(line):
    if line == b"":
        return taken(0, 0)
    c, cs = line[0], line[1:]
    if c == 64:
        t = number_from(0, 2**64 - 1, 1, line_limit - 3, cs)
        p = space_at(t.place, line[t.place :])
        return taken(t.value, p)
    return taken(0, 0)


def line_from(line):
    if line_limit < len(line):
        return bad(line_limit)
    t = session_from(line)
    a = command_from(t.place, line)
    return line_by(t.value, a)


# qx_words/Texts


def hex_text(d):
    return 48 + d if d < 10 else 87 + d


@lru_cache(None)
def byte_text(b):
    if 0x21 <= b and (b <= 0x7E and not b == 92):
        return bytes([b])
    return bytes([92, hex_text(b // 16), hex_text(b % 16)])


def word_text(bytes_):
    return b"".join(map(byte_text, bytes_))


def mode_text(m):
    return bytes([48 + m // 512 % 8, 48 + m // 64 % 8, 48 + m // 8 % 8, 48 + m % 8])


def kind_text(kind):
    if kind == 1:
        return b"dir"
    if kind == 2:
        return b"file"
    if kind == 3:
        return b"link"
    return b"special"


def times_text(a):
    return (
        b" ftime " + decimal(a.ftime) + b" mtime " + decimal(a.mtime) + b" atime " + decimal(a.atime) + b" ctime " + decimal(a.ctime)
    )


def stat_text(v):
    return (
        b"ok " + kind_text(v.kind) + b" inode " + decimal(v.inode) + b" size " + decimal(v.size) + b" mode " + mode_text(v.attr.mode)
        + b" uid " + decimal(v.attr.uid) + b" gid " + decimal(v.attr.gid) + b" links " + decimal(v.links) + times_text(v.attr) + b"\n"
    )


def space_text(v):
    return (
        b"ok blocks " + decimal(v.blocks) + b" user " + decimal(v.user) + b" free " + decimal(v.free)
        + b" inodes " + decimal(v.inodes) + b" free " + decimal(v.free_inodes) + b" serial " + decimal(v.serial) + b"\n"
    )


def row_text(row):
    return decimal(row.inode) + b" " + word_text(row.name) + b"\n"


def refusal_name(r):
    match r:
        case refusal.NoEntry(): return b"NoEntry"
        case refusal.NotDir(): return b"NotDir"
        case refusal.IsDir(): return b"IsDir"
        case refusal.Exists(): return b"Exists"
        case refusal.NotEmpty(): return b"NotEmpty"
        case refusal.NameTooLong(): return b"NameTooLong"
        case refusal.BadPath(): return b"BadPath"
        case refusal.LinkLoop(): return b"LinkLoop"
        case refusal.WrongKind(): return b"WrongKind"
        case refusal.FileTooBig(): return b"FileTooBig"
        case refusal.NoSpace(need, free): return b"NoSpace"
        case refusal.NoInodes(): return b"NoInodes"
        case refusal.ReadOnly(): return b"ReadOnly"
        case refusal.IntoItself(): return b"IntoItself"
        case refusal.Reserved(): return b"Reserved"
        case refusal.Device(): return b"Device"
        case refusal.NoMemory(): return b"NoMemory"
        case refusal.Held(count): return b"Held"
        case refusal.SerialEnd(): return b"SerialEnd"
        case refusal.NoSession(): return b"NoSession"
        case refusal.BadLine(at): return b"BadLine"


def refusal_details(r):
    match r:
        case refusal.NoSpace(need, free): return b" need " + decimal(need) + b" free " + decimal(free)
        case refusal.Held(count): return b" " + decimal(count)
        case refusal.BadLine(at): return b" " + decimal(at)
        case _: return b""


def refusal_text(r):
    return b"error " + decimal(refusal_number(r)) + b" " + refusal_name(r) + refusal_details(r) + b"\n"


def reply_text(r):
    match r:
        case reply.Done(): return b"ok\n"
        case reply.Rows(rows): return b"ok " + decimal(len(rows)) + b"\n" + b"".join(map(row_text, rows))
        case reply.Stat(v): return stat_text(v)
        case reply.Bytes(bytes_): return b"ok " + decimal(len(bytes_)) + b"\n" + word_text(bytes_) + b"\n"
        case reply.Target(target): return b"ok " + word_text(target) + b"\n"
        case reply.Space(v): return space_text(v)
        case reply.Refused(r): return refusal_text(r)


def notice_text(n):
    match n:
        case notice.Snapshot(serial): return b"snapshot " + decimal(serial) + b"\n"
        case notice.Device(): return b"notice device\n"
        case notice.Memory(): return b"notice memory\n"


def turn_text(t):
    return reply_text(t.reply) + b"".join(map(notice_text, t.notices))


def last_reply_text(r):
    match r:
        case reply.Refused(r): return refusal_text(r)
        case _: return b""


def last_text(t):
    return last_reply_text(t.reply) + b"".join(map(notice_text, t.notices))


# qx_words/Scripts


def text(lines):
    return b"".join(line + b"\n" for line in lines)


def event_by(session, a, moment):
    return VolEvent(session=session, moment=moment, act=a)


def refusal_for(f):
    match f:
        case fault.BadLine(at): return refusal.BadLine(at)
        case fault.NoMemory(): return refusal.NoMemory()


def unread(f, t):
    return replace(t, reply=reply.Refused(refusal_for(f)))


def told_then(quit_, r, rest):
    if quit_:
        return [turn_text(r.turn)]
    return [turn_text(r.turn)] + rest(r.machine)


class Scripts:
    @staticmethod
    def told_by(line, s, moment, rest):
        try:
            l = line_from(line)
        except Err as f:
            r = next_(s, event_by(0, act.Tick(), moment))
            return [turn_text(unread(f.why, r.turn))] + rest(r.machine)
        return told_then(l.quit, next_(s, event_by(l.session, l.act, moment)), rest)


def output_of(s, moments, lines):
    if not moments:
        return []
    if not lines:
        return [last_text(next_(s, event_by(0, act.End(), moments[0])).turn)]
    return Scripts.told_by(lines[0], s, moments[0], lambda t: output_of(t, moments[1:], lines[1:]))


def output_at(moments, s, script):
    return output_of(s, moments, lines_of(script))


def output(s, script):
    return output_at((1000,) * 64, s, script)


# qx_shell/Mounts

How = choice("Writing | Reading")


def is_for_reading(how):
    match how:
        case How.Writing(): return False
        case How.Reading(): return True


def volume_of(how, g):
    return Volume(
        blocksize=g.blocksize,
        blocks=g.num_blocks,
        user=user_blocks(g),
        system_leaves=g.bitmap_leaves + g.inode_leaves,
        inodes=g.num_inodes,
        is_read_only=is_for_reading(how),
        free_without_ids=None,
    )


if __name__ == "__main__":
    source = open(sys.argv[1], "rb") if len(sys.argv) > 1 else sys.stdin.buffer
    sys.stdout.buffer.write(b"".join(output(small(1000), source.read())))
