#!/usr/bin/env python3
"""An independent second reading of the heap page rules.

This script makes the test image of the page inspector and the exact text that
the inspector must print for it.  It shares no code with the inspector: both
are written from the rules alone, so a slip in one of them shows as a
difference between the two texts.

The script itself has two halves that do not trust each other.

  * The builder lays out pages with struct.pack.  Every page carries a verdict
    written by hand: lawful, or the rule that is reported and where.
  * The reader takes nothing but the bytes.  It decodes them field by field,
    evaluates every rule by itself, and prints the text.

The verdict of the reader must equal the verdict of the hand, and so must the
set of all rules that a page breaks.  For each of the 28 rules there must be a
page that breaks this rule and no other.

    python3 tools/heap_image.py            write the image and the text
    python3 tools/heap_image.py --check    compare only; exit 1 on a difference
"""

import argparse
import struct
import sys
from collections import Counter
from pathlib import Path
from typing import Callable, NamedTuple, Optional

ROOT = Path(__file__).resolve().parent.parent
IMAGE_FILE = ROOT / "crates" / "inspect" / "data" / "heap.img"
TEXT_FILE = ROOT / "crates" / "inspect" / "stdout"

# The path as it is given to the inspector, which prints it back (the gate runs it beside the image).
IMAGE_ARGUMENT = "heap.img"

PAGE_SIZE = 8192
MAX_PAGES = 64

# The states of a line pointer.
UNUSED, NORMAL, REDIRECT, DEAD = 0, 1, 2, 3

# The bits of infomask.
CREATOR_COMMITTED = 0x0100
CREATOR_INVALID = 0x0200
CREATOR_FROZEN = 0x0300  # both creator bits together
REMOVER_COMMITTED = 0x0400
REMOVER_INVALID = 0x0800
UPDATED = 0x2000

# The bits of infomask2 above the attribute count.
HOT_UPDATED = 0x4000
HEAP_ONLY = 0x8000

# The place of a broken rule is a pointer number, counted from 1, or this.
HEADER = 0


def require(condition: bool, message: str) -> None:
    """Stop with a message where something that must hold does not."""
    if not condition:
        sys.exit(f"heap_image: {message}")


# ---------------------------------------------------------------------------
# The reader: from bytes to fields.
# ---------------------------------------------------------------------------

STATE_NAMES = {0: "unused", 1: "normal", 2: "redirect", 3: "dead"}

# The table of kinds: name, and bytes of the body that follows the kind byte.
KINDS = {
    1: ("temperature", 8),
    2: ("voltage", 12),
    3: ("counter", 8),
    4: ("contact", 20),
    5: ("remark", 120),
    6: ("frame", 1000),
}


class Header(NamedTuple):
    lsn: int
    checksum: int
    flags: int
    lower: int
    upper: int
    special: int
    version: int
    prune_xid: int


class Pointer(NamedTuple):
    number: int
    state: int
    offset: int
    length: int


class VersionHeader(NamedTuple):
    creator: int
    remover: int
    ctid_block: int
    ctid_pointer: int
    infomask2: int
    infomask: int
    hoff: int
    after_hoff: int


class Row(NamedTuple):
    kind: int
    body: bytes


def number_at(page: bytes, offset: int, size: int) -> int:
    """The unsigned little-endian number of `size` bytes at `offset`."""
    return int.from_bytes(page[offset:offset + size], "little")


def read_header(page: bytes) -> Header:
    return Header(
        lsn=number_at(page, 0, 8),
        checksum=number_at(page, 8, 2),
        flags=number_at(page, 10, 2),
        lower=number_at(page, 12, 2),
        upper=number_at(page, 14, 2),
        special=number_at(page, 16, 2),
        version=number_at(page, 18, 2),
        prune_xid=number_at(page, 20, 4),
    )


def pointers_up_to(lower: int) -> int:
    """How many whole line pointers lie between byte 24 and `lower`."""
    return max(lower - 24, 0) // 4


def read_pointers(page: bytes, header: Header) -> list[Pointer]:
    """The pointers that are shown: never past the end of the page."""
    pointers = []
    for index in range(pointers_up_to(min(header.lower, 8192))):
        word = number_at(page, 24 + 4 * index, 4)
        pointers.append(Pointer(
            number=index + 1,
            state=(word >> 15) & 0x3,
            offset=word & 0x7FFF,
            length=(word >> 17) & 0x7FFF,
        ))
    return pointers


def read_version(page: bytes, pointer: Pointer) -> Optional[VersionHeader]:
    """The 24 bytes of a version's header, if they lie inside the page."""
    start = pointer.offset
    if start + 24 > 8192:
        return None
    return VersionHeader(
        creator=number_at(page, start + 0, 4),
        remover=number_at(page, start + 4, 4),
        # The command id, 4 bytes at 8, is never read.
        ctid_block=number_at(page, start + 12, 2) * 65536 + number_at(page, start + 14, 2),
        ctid_pointer=number_at(page, start + 16, 2),
        infomask2=number_at(page, start + 18, 2),
        infomask=number_at(page, start + 20, 2),
        hoff=page[start + 22],
        after_hoff=page[start + 23],
    )


def read_row(page: bytes, pointer: Pointer) -> Optional[Row]:
    """Kind and body, if the version is long enough and ends in the page."""
    start, end = pointer.offset, pointer.offset + pointer.length
    if pointer.length < 25 or end > 8192:
        return None
    return Row(kind=page[start + 24], body=page[start + 25:end])


# ---------------------------------------------------------------------------
# The reader: the rules.
# ---------------------------------------------------------------------------

RULES = {
    # The header.
    1: "pd_special is 8192",
    2: "pd_pagesize_version is 0x2004",
    3: "pd_flags is 0",
    4: "pd_lower is at least 24",
    5: "pd_lower is at most pd_upper",
    6: "pd_upper is at most 8192",
    7: "pd_lower - 24 is a multiple of 4",
    8: "pd_upper is a multiple of 8",
    9: "at most 291 line pointers",
    # One pointer alone.
    10: "an unused pointer has offset and length 0",
    11: "a dead pointer has offset and length 0",
    12: "a redirect has length 0",
    13: "a version starts at a multiple of 8",
    14: "a version lies at or above pd_upper",
    15: "a version ends by byte 8192",
    16: "a version holds its header and a kind byte",
    17: "the kind stands in the table of kinds",
    18: "the length is 24 plus the row of its kind",
    19: "hoff is 24",
    20: "the byte after hoff is 0",
    21: "the attribute count is 1",
    22: "only named bits are set",
    23: "remover-committed and remover-invalid are not both set",
    24: "the creator is at least 3",
    25: "the remover is at least 3, or 0 with remover-invalid",
    # Several pointers together.
    26: "no two versions overlap",
    27: "a redirect leads to a heap-only version",
    28: "a heap-only version is named at most once",
}


class Break(NamedTuple):
    """A broken rule and its place: HEADER or a pointer number."""
    rule: int
    place: int


def header_rules(header: Header) -> dict[int, bool]:
    """Rules 1 to 9, each with whether it holds."""
    return {
        1: header.special == 8192,
        2: header.version == 0x2004,
        3: header.flags == 0,
        4: header.lower >= 24,
        5: header.lower <= header.upper,
        6: header.upper <= 8192,
        7: (header.lower - 24) % 4 == 0,
        8: header.upper % 8 == 0,
        9: pointers_up_to(header.lower) <= 291,
    }


def pointer_rules(page: bytes, header: Header, pointer: Pointer) -> dict[int, bool]:
    """Rules 10 to 25 for one pointer, as far as they can be evaluated."""
    if pointer.state == UNUSED:
        return {10: pointer.offset == 0 and pointer.length == 0}
    if pointer.state == DEAD:
        return {11: pointer.offset == 0 and pointer.length == 0}
    if pointer.state == REDIRECT:
        return {12: pointer.length == 0}
    return {
        13: pointer.offset % 8 == 0,
        14: pointer.offset >= header.upper,
        15: pointer.offset + pointer.length <= 8192,
        16: pointer.length >= 25,
        **kind_rules(page, pointer),
        **version_header_rules(read_version(page, pointer)),
    }


def kind_rules(page: bytes, pointer: Pointer) -> dict[int, bool]:
    """Rules 17 and 18.

    Neither can be evaluated without a kind byte: the version is shorter than
    25 bytes (rule 16 is broken) or the byte lies outside the page (rule 15
    is).  Rule 18 has no meaning for an unknown kind (rule 17 is broken).
    """
    if pointer.length < 25 or pointer.offset + 24 >= 8192:
        return {}
    kind = page[pointer.offset + 24]
    if kind not in KINDS:
        return {17: False}
    _, body = KINDS[kind]
    return {17: True, 18: pointer.length == 24 + 1 + body}


def version_header_rules(version: Optional[VersionHeader]) -> dict[int, bool]:
    """Rules 19 to 25; none can be evaluated for a header outside the page."""
    if version is None:
        return {}
    remover_bits = version.infomask & (REMOVER_COMMITTED | REMOVER_INVALID)
    return {
        19: version.hoff == 24,
        20: version.after_hoff == 0,
        21: version.infomask2 & 0x07FF == 1,
        22: version.infomask & ~0x2F00 == 0 and version.infomask2 & ~0xC7FF == 0,
        23: remover_bits != REMOVER_COMMITTED | REMOVER_INVALID,
        24: version.creator >= 3,
        25: version.remover >= 3
            or (version.remover == 0 and version.infomask & REMOVER_INVALID != 0),
    }


def rounded_up(length: int) -> int:
    """The length, rounded up to a multiple of 8."""
    return (length + 7) // 8 * 8


def overlapping(pointers: list[Pointer]) -> list[int]:
    """Rule 26: the pointers whose version overlaps that of an earlier one."""
    found, earlier = [], []
    for pointer in pointers:
        if pointer.state != NORMAL:
            continue
        start = pointer.offset
        end = start + rounded_up(pointer.length)
        if any(max(start, other_start) < min(end, other_end)
               for other_start, other_end in earlier):
            found.append(pointer.number)
        earlier.append((start, end))
    return found


def heap_only_creators(page: bytes, pointers: list[Pointer]) -> dict[int, int]:
    """The heap-only versions of the page: pointer number to creator."""
    creators = {}
    for pointer in pointers:
        version = read_version(page, pointer) if pointer.state == NORMAL else None
        if version is not None and version.infomask2 & HEAP_ONLY:
            creators[pointer.number] = version.creator
    return creators


def misleading(pointers: list[Pointer], heap_only: dict[int, int]) -> list[int]:
    """Rule 27: the redirects that do not lead to a heap-only version."""
    return [pointer.number for pointer in pointers
            if pointer.state == REDIRECT and pointer.offset not in heap_only]


def named_by(page: bytes, block: int, pointer: Pointer,
             heap_only: dict[int, int]) -> Optional[int]:
    """The heap-only version that this pointer names, if it names one."""
    if pointer.state == REDIRECT:
        return pointer.offset if pointer.offset in heap_only else None
    if pointer.state != NORMAL:
        return None
    version = read_version(page, pointer)
    if version is None or not version.infomask2 & HOT_UPDATED:
        return None
    if version.ctid_block != block or version.ctid_pointer not in heap_only:
        return None
    if version.remover != heap_only[version.ctid_pointer]:
        return None
    return version.ctid_pointer


def naming_again(page: bytes, block: int, pointers: list[Pointer],
                 heap_only: dict[int, int]) -> list[int]:
    """Rule 28: the pointers that name what an earlier pointer names already."""
    found, named = [], set()
    for pointer in pointers:
        target = named_by(page, block, pointer, heap_only)
        if target is None:
            continue
        if target in named:
            found.append(pointer.number)
        named.add(target)
    return found


def page_breaks(page: bytes, block: int) -> list[Break]:
    """Every broken rule of the page, in the order of reporting."""
    header = read_header(page)
    pointers = read_pointers(page, header)
    heap_only = heap_only_creators(page, pointers)
    breaks = [Break(rule, HEADER)
              for rule, holds in header_rules(header).items() if not holds]
    for pointer in pointers:
        breaks += [Break(rule, pointer.number)
                   for rule, holds in pointer_rules(page, header, pointer).items()
                   if not holds]
    breaks += [Break(26, number) for number in overlapping(pointers)]
    breaks += [Break(27, number) for number in misleading(pointers, heap_only)]
    breaks += [Break(28, number)
               for number in naming_again(page, block, pointers, heap_only)]
    return breaks


# ---------------------------------------------------------------------------
# The reader: the text.
# ---------------------------------------------------------------------------

def header_line(header: Header) -> str:
    return (f"  header: lsn 0x{header.lsn:016x}, checksum 0x{header.checksum:04x}, "
            f"flags 0x{header.flags:04x}, lower {header.lower}, upper {header.upper}, "
            f"special {header.special}, version 0x{header.version:04x}, "
            f"prune xid {header.prune_xid}")


def pointer_line(pointer: Pointer) -> str:
    return (f"  pointer {pointer.number}: {STATE_NAMES[pointer.state]}, "
            f"offset {pointer.offset}, length {pointer.length}")


def bit_names(version: VersionHeader) -> str:
    """The names of the set bits, separated by one blank."""
    if version.infomask & CREATOR_FROZEN == CREATOR_FROZEN:
        names = ["creator-frozen"]
    else:
        names = [name for bit, name in ((CREATOR_COMMITTED, "creator-committed"),
                                        (CREATOR_INVALID, "creator-invalid"))
                 if version.infomask & bit]
    names += [name for bit, name in ((REMOVER_COMMITTED, "remover-committed"),
                                     (REMOVER_INVALID, "remover-invalid"),
                                     (UPDATED, "updated"))
              if version.infomask & bit]
    names += [name for bit, name in ((HOT_UPDATED, "hot-updated"),
                                     (HEAP_ONLY, "heap-only"))
              if version.infomask2 & bit]
    return " ".join(names)


def row_text(row: Optional[Row]) -> str:
    if row is None:
        return "no row"
    name = KINDS[row.kind][0] if row.kind in KINDS else "unknown"
    return f"kind {row.kind} {name}, body {row.body.hex()}"


def version_line(page: bytes, pointer: Pointer) -> str:
    version = read_version(page, pointer)
    if version is None:
        return "    version outside the page"
    return (f"    creator {version.creator}, remover {version.remover}, "
            f"infomask2 0x{version.infomask2:04x}, infomask 0x{version.infomask:04x} "
            f"[{bit_names(version)}], "
            f"ctid ({version.ctid_block},{version.ctid_pointer}), "
            f"{row_text(read_row(page, pointer))}")


def verdict_line(breaks: list[Break]) -> str:
    if not breaks:
        return "  lawful"
    first = breaks[0]
    place = "in the header" if first.place == HEADER else f"at pointer {first.place}"
    return f"  unlawful {place}: broken rule: {RULES[first.rule]}"


def pages_text(count: int) -> str:
    return "1 page" if count == 1 else f"{count} pages"


def inspect(image: bytes, path: str) -> str:
    """The text that the inspector must print for this image."""
    pages = [image[start:start + PAGE_SIZE] for start in range(0, len(image), PAGE_SIZE)]
    lines = [f"{path}: {pages_text(len(pages))}"]
    lawful = 0
    states = Counter()
    for block, page in enumerate(pages):
        header = read_header(page)
        breaks = page_breaks(page, block)
        lines += [f"page {block}", header_line(header)]
        for pointer in read_pointers(page, header):
            states[pointer.state] += 1
            lines.append(pointer_line(pointer))
            if pointer.state == NORMAL:
                lines.append(version_line(page, pointer))
        lines.append(verdict_line(breaks))
        lawful += not breaks
    lines.append(f"{pages_text(len(pages))}: {lawful} lawful, {len(pages) - lawful} unlawful; "
                 f"{sum(states.values())} line pointers: {states[NORMAL]} normal, "
                 f"{states[REDIRECT]} redirect, {states[DEAD]} dead, {states[UNUSED]} unused")
    return "".join(line + "\n" for line in lines)


# ---------------------------------------------------------------------------
# The builder: rows, versions and pages.
# ---------------------------------------------------------------------------

# The rules do not look into a body; what stands in it here is of no weight.

def temperature(sensor: int, degrees: float) -> bytes:
    return struct.pack("<BIf", 1, sensor, degrees)


def voltage(sensor: int, volts: float) -> bytes:
    return struct.pack("<BId", 2, sensor, volts)


def counter(sensor: int, count: int) -> bytes:
    return struct.pack("<BII", 3, sensor, count)


def contact(sensor: int, name: str) -> bytes:
    return struct.pack("<BI16s", 4, sensor, name.encode())


def remark(text: str) -> bytes:
    return struct.pack("<B120s", 5, text.encode())


def frame(seed: int) -> bytes:
    """A frame with a pattern that does not repeat within its 1,000 bytes."""
    return struct.pack("<B1000s", 6, bytes((seed + 7 * i + i // 256) % 256
                                           for i in range(1000)))


class Bare:
    """A line pointer without a version of its own."""

    def __init__(self, state: int, offset: int = 0, length: int = 0):
        self.state = state
        self.offset = offset
        self.length = length


class Version:
    """A version with its normal line pointer; set as by an insert."""

    state = NORMAL

    def __init__(self, creator: int, row: bytes):
        self.creator = creator
        self.remover = 0
        self.command = 0
        self.ctid = None  # set when the version gets its pointer
        self.infomask2 = 0x0001
        self.infomask = 0x0800
        self.hoff = 24
        self.after_hoff = 0
        self.row = row
        self.number = None
        self.offset = None
        self.length = 24 + len(row)

    def hint(self, bits: int) -> "Version":
        """Set hint bits."""
        self.infomask |= bits
        return self

    def bits(self, infomask: int, infomask2: int = 0x0001) -> "Version":
        """Set both infomask words as a whole."""
        self.infomask = infomask
        self.infomask2 = infomask2
        return self

    def removed(self, remover: int, ctid: tuple[int, int]) -> "Version":
        """Name a remover and the next version; forget the last remover's fate."""
        self.remover = remover
        self.infomask &= ~(REMOVER_COMMITTED | REMOVER_INVALID)
        self.ctid = ctid
        return self

    def pack(self) -> bytes:
        block, pointer = self.ctid
        return struct.pack("<IIIHHHHHBB", self.creator, self.remover, self.command,
                           block >> 16, block & 0xFFFF, pointer,
                           self.infomask2, self.infomask,
                           self.hoff, self.after_hoff) + self.row


class Draft:
    """A page in the making, empty at first."""

    def __init__(self, block: int):
        self.block = block
        self.lsn = 0
        self.checksum = 0
        self.flags = 0
        self.lower = None  # None: it follows from the number of pointers
        self.upper = 8192
        self.special = 8192
        self.version = 0x2004
        self.prune_xid = 0
        self.slots = []
        self.stray = []  # bytes written outside of versions: (offset, bytes)
        self.whole = None  # the bytes of the page as a whole, if set by hand

    # Pointers.

    def set_slot(self, slot, number: Optional[int] = None) -> int:
        """Give the slot a new pointer, or the one of that number."""
        if number is None:
            self.slots.append(slot)
            return len(self.slots)
        self.slots[number - 1] = slot
        return number

    def unused(self, number: Optional[int] = None) -> int:
        return self.set_slot(Bare(UNUSED), number)

    def dead(self, number: Optional[int] = None) -> int:
        return self.set_slot(Bare(DEAD), number)

    def redirect(self, target: int, number: Optional[int] = None) -> int:
        return self.set_slot(Bare(REDIRECT, offset=target), number)

    def bare(self, state: int, offset: int, length: int) -> int:
        return self.set_slot(Bare(state, offset, length))

    # Versions.

    def room(self, length: int) -> int:
        """Take room below the lowest version; give its offset."""
        self.upper -= -(-length // 8) * 8
        return self.upper

    def insert(self, creator: int, row: bytes, *, at: Optional[int] = None,
               number: Optional[int] = None) -> Version:
        """A new version: below the others, or `at` an offset set by hand.

        A version set by hand leaves pd_upper as it is.
        """
        version = Version(creator, row)
        version.offset = self.room(version.length) if at is None else at
        version.number = self.set_slot(version, number)
        version.ctid = (self.block, version.number)
        return version

    def insert_heap_only(self, creator: int, row: bytes, **where) -> Version:
        """The new version of a heap-only update."""
        return self.insert(creator, row, **where).bits(0x2800, 0x8001)

    def arrive(self, creator: int, row: bytes, **where) -> Version:
        """The new version of an update that is not heap-only."""
        return self.insert(creator, row, **where).bits(0x2800)

    def update_hot(self, old: Version, xid: int, row: bytes, **where) -> Version:
        new = self.insert_heap_only(xid, row, **where)
        old.removed(xid, (self.block, new.number))
        old.infomask2 |= HOT_UPDATED
        return new

    def update_away(self, old: Version, xid: int, ctid: tuple[int, int]) -> Version:
        """The old version of an update that is not heap-only."""
        old.removed(xid, ctid)
        old.infomask2 &= ~HOT_UPDATED
        return old

    def delete(self, old: Version, xid: int) -> Version:
        return self.update_away(old, xid, (self.block, old.number))

    def compact(self) -> None:
        """Lay the versions out afresh from the page's end, without gaps."""
        self.upper = 8192
        for slot in self.slots:
            if isinstance(slot, Version):
                slot.offset = self.room(slot.length)

    # Bytes.

    def pack(self) -> bytes:
        if self.whole is not None:
            return self.whole
        page = bytearray(PAGE_SIZE)
        for offset, data in self.stray:
            put(page, offset, data)
        for slot in self.slots:
            if isinstance(slot, Version):
                put(page, slot.offset, slot.pack())
        for index, slot in enumerate(self.slots):
            word = slot.offset | slot.state << 15 | slot.length << 17
            put(page, 24 + 4 * index, struct.pack("<I", word))
        lower = 24 + 4 * len(self.slots) if self.lower is None else self.lower
        put(page, 0, struct.pack("<QHHHHHHI", self.lsn, self.checksum, self.flags, lower,
                                 self.upper, self.special, self.version, self.prune_xid))
        return bytes(page)


def put(page: bytearray, offset: int, data: bytes) -> None:
    """Write the part of the data that lies inside the page."""
    for index, byte in enumerate(data):
        if offset + index < PAGE_SIZE:
            page[offset + index] = byte


# ---------------------------------------------------------------------------
# The pages, in the order of their blocks, with their verdicts by hand.
# ---------------------------------------------------------------------------

class Spec(NamedTuple):
    """How to build a page; its verdict; all the rules that it breaks."""
    name: str
    build: Callable[[Draft], None]
    verdict: Optional[Break]
    broken: frozenset


SPECS: list[Spec] = []


def lawful(build):
    """Register a page that breaks no rule."""
    SPECS.append(Spec(build.__name__, build, None, frozenset()))
    return build


def unlawful(rule: int, at: int, also: tuple = ()):
    """Register a page that is reported for `rule`, and breaks `also` too."""
    def register(build):
        SPECS.append(Spec(build.__name__, build, Break(rule, at), frozenset((rule, *also))))
        return build
    return register


def two_rows(draft: Draft) -> None:
    """Two lawful versions at pointers 1 and 2, at 8152 and 8104."""
    draft.insert(50, temperature(1, 18.5)).hint(CREATOR_COMMITTED)
    draft.insert(51, contact(2, "gate")).hint(CREATOR_FROZEN)


# Lawful pages.

@lawful
def empty_page(draft):
    """No pointer, no version."""


@lawful
def all_six_kinds(draft):
    """Every kind; creators and removers near the wrap; many sets of bits."""
    draft.lsn = 0x0123456789ABCDEF
    draft.checksum = 0xBEEF
    draft.prune_xid = 4294967290
    draft.insert(100, temperature(7, 12.5)).hint(CREATOR_COMMITTED)
    draft.insert(4294967295, voltage(8, 229.75)).hint(CREATOR_COMMITTED)
    draft.insert(3, counter(9, 4000000000))
    draft.insert(2147483648, contact(10, "cellar door")).hint(CREATOR_INVALID)
    note = draft.insert(4294967294, remark("The second pump runs hot after noon."))
    draft.delete(note, 3).hint(CREATOR_COMMITTED | REMOVER_COMMITTED)
    draft.insert(101, frame(17)).hint(CREATOR_FROZEN)
    # Removed by a transaction that still runs: no bit is set at all.
    draft.delete(draft.insert(102, temperature(11, -40.0)), 4294967295)
    # Removed by a transaction that came to nothing.
    draft.delete(draft.insert(103, counter(12, 0)), 110).hint(CREATOR_COMMITTED
                                                              | REMOVER_INVALID)
    # Came here from pointer 3 of page 7.
    draft.arrive(104, voltage(13, -0.125)).hint(CREATOR_COMMITTED)
    draft.delete(draft.insert(105, contact(14, "lid")), 2147483647).hint(CREATOR_FROZEN
                                                                         | REMOVER_COMMITTED)


@lawful
def two_hot_chains(draft):
    """A chain of four versions, and one with an aborted update in its middle.

    The first chain is 1, 3, 5, 7.  The second is 2, 6, 8; versions 4 and 9 are
    of a transaction that updated the row twice and aborted, after which
    version 2 was updated anew and does not name version 4 any more.
    """
    draft.lsn = 0x1_0000_0042
    draft.prune_xid = 202
    first = draft.insert(200, counter(20, 1)).hint(CREATOR_COMMITTED)
    second = draft.insert(201, contact(21, "hatch")).hint(CREATOR_COMMITTED)
    first_2 = draft.update_hot(first, 202, counter(20, 2))
    aborted = draft.update_hot(second, 203, contact(21, "hatch, open"))
    first_3 = draft.update_hot(first_2, 204, counter(20, 3))
    second.hint(REMOVER_INVALID)
    second_2 = draft.update_hot(second, 205, contact(21, "hatch, shut"))
    draft.update_hot(first_3, 206, counter(20, 4))
    draft.update_hot(second_2, 207, contact(21, "hatch, locked"))
    aborted_2 = draft.update_hot(aborted, 203, contact(21, "hatch, lost"))
    first.hint(REMOVER_COMMITTED)
    first_2.hint(CREATOR_COMMITTED | REMOVER_COMMITTED)
    first_3.hint(CREATOR_COMMITTED)
    second.hint(REMOVER_COMMITTED)
    second_2.hint(CREATOR_COMMITTED)
    aborted.hint(CREATOR_INVALID)
    aborted_2.hint(CREATOR_INVALID)


@lawful
def after_pruning(draft):
    """Redirects forward and backward, dead and unused pointers, chains that go on."""
    draft.lsn = 0x2_0000_0300
    draft.prune_xid = 310
    first = draft.insert(300, temperature(30, 1.0))            # 1
    first = draft.update_hot(first, 301, temperature(30, 2.0))  # 2
    first = draft.update_hot(first, 302, temperature(30, 3.0))  # 3
    second = draft.insert(303, remark("first"))                # 4
    second = draft.update_hot(second, 304, remark("second"))   # 5
    draft.insert(305, counter(31, 5))                          # 6
    gone = draft.insert(306, voltage(32, 6.0))                 # 7
    draft.update_hot(gone, 307, voltage(32, 7.0))              # 8
    draft.insert(308, contact(33, "stays")).hint(CREATOR_COMMITTED)  # 9
    # The first pruning.
    draft.redirect(3, number=1)
    draft.unused(number=2)
    draft.redirect(5, number=4)
    draft.dead(number=6)
    draft.dead(number=7)
    draft.unused(number=8)
    draft.compact()
    # The chains go on; the unused pointers are taken again.
    first = draft.update_hot(first.hint(CREATOR_COMMITTED), 310, temperature(30, 4.0), number=2)
    draft.update_hot(first, 311, temperature(30, 5.0))         # 10
    second = draft.update_hot(second, 312, remark("third"), number=8)
    # The second pruning: the redirect at 4 is set anew, 5 is free.
    draft.redirect(8, number=4)
    draft.unused(number=5)
    draft.compact()
    third = draft.insert(313, counter(34, 1))                  # 11
    draft.update_hot(third, 314, counter(34, 2), number=5)
    # The third pruning: a redirect to a lower pointer.
    draft.redirect(5, number=11)
    draft.unused()                                             # 12
    draft.compact()


@lawful
def full_of_temperatures(draft):
    """185 rows of kind 1; there is no room for one more."""
    for index in range(185):
        row = draft.insert(400 + index, temperature(index, index * 0.25 - 20.0))
        row.hint((0, CREATOR_COMMITTED, CREATOR_FROZEN)[index % 3])
    require(24 + 4 * len(draft.slots) == 764, "the full page must have lower 764")
    require(draft.upper == 792, "the full page must have upper 792")


@lawful
def most_pointers(draft):
    """291 pointers, the most there may be; few of them have a version.

    The first pointer is a redirect to the last one.
    """
    rows = [temperature(50, 0.5), voltage(51, 1.5), counter(52, 2), contact(53, "three"),
            remark("four")]
    draft.redirect(291)
    for number in range(2, 291):
        if number % 29 == 0:
            draft.insert(500 + number, rows[number // 29 % 5]).hint(CREATOR_COMMITTED)
        elif number % 3 == 0:
            draft.dead()
        else:
            draft.unused()
    draft.insert_heap_only(800, frame(5)).hint(CREATOR_COMMITTED)
    require(len(draft.slots) == 291, "the page must have 291 pointers")


@lawful
def lower_equals_upper(draft):
    """290 pointers that reach up to the lowest version: no byte is free."""
    rows = [frame(60 + index) for index in range(6)]
    rows += [remark("full"), remark("to the brim")]
    rows += [temperature(index, 60.0 + index) for index in range(8)]
    rows += [contact(index, f"line {index}") for index in range(4)]
    rows.reverse()
    for number in range(1, 291):
        if number % 14 == 1 and rows:
            draft.insert(600 + number, rows.pop())
        elif number % 5 == 0:
            draft.dead()
        else:
            draft.unused()
    require(24 + 4 * len(draft.slots) == 1184 == draft.upper, "lower and upper must be 1184")


@lawful
def across_pages(draft):
    """Updates to other blocks and to this one, frozen versions, deletes."""
    draft.lsn = 0xFFFF_FFFF_FFFF_FFFF
    draft.checksum = 0x0001
    row = draft.insert(700, counter(70, 1)).hint(CREATOR_COMMITTED)          # 1
    draft.update_away(row, 701, (9, 2))
    draft.insert(702, temperature(71, 7.25)).hint(CREATOR_FROZEN)            # 2
    row = draft.insert(100, voltage(13, 0.125)).hint(CREATOR_COMMITTED)      # 3
    draft.update_away(row, 104, (1, 9)).hint(REMOVER_COMMITTED)
    row = draft.insert(703, remark("frozen, then deleted")).hint(CREATOR_FROZEN)  # 4
    draft.delete(row, 710).hint(REMOVER_COMMITTED)
    # A heap-only chain whose last version moves to another page.
    root = draft.insert(705, contact(72, "mast")).hint(CREATOR_COMMITTED)    # 5
    tail = draft.update_hot(root, 706, contact(72, "mast, up"))              # 6
    draft.update_away(tail, 704, (9, 4))
    # An update to this page that is not heap-only.
    row = draft.insert(707, counter(73, 3)).hint(CREATOR_FROZEN)             # 7
    new = draft.arrive(708, counter(73, 4)).hint(CREATOR_COMMITTED)          # 8
    draft.update_away(row, 708, (draft.block, new.number)).hint(REMOVER_COMMITTED)
    # An update to another page that came to nothing.
    row = draft.insert(709, temperature(74, 0.0)).hint(CREATOR_COMMITTED)    # 9
    draft.update_away(row, 711, (63, 1)).hint(REMOVER_INVALID)
    # A delete that still runs.
    draft.delete(draft.insert(712, voltage(75, 400.0)), 713)                 # 10


@lawful
def circle_off_every_root(draft):
    """Two heap-only versions that name each other, and nothing else names them."""
    draft.insert(800, temperature(80, 8.0)).hint(CREATOR_COMMITTED)          # 1
    one = draft.insert_heap_only(801, counter(81, 1))                        # 2
    two = draft.insert_heap_only(802, counter(81, 2))                        # 3
    for old, new in ((one, two), (two, one)):
        old.removed(new.creator, (draft.block, new.number))
        old.infomask2 |= HOT_UPDATED
    draft.redirect(5)                                                        # 4
    draft.insert_heap_only(803, counter(82, 3)).hint(CREATOR_COMMITTED)      # 5


@lawful
def mixed_order_with_gaps(draft):
    """Versions in no order, with gaps and without.

    One starts exactly at pd_upper, and one fills the page exactly to its end.
    The latter does so with its padding: a lawful version starts at a multiple
    of 8, and no kind has a length that is one.
    """
    draft.upper = 6000
    draft.insert(900, remark("in the middle"), at=6904).hint(CREATOR_COMMITTED)  # 1
    draft.arrive(701, counter(70, 2), at=6000)                               # 2: at pd_upper
    draft.insert(901, temperature(90, 9.5), at=8152)                         # 3: to the end
    draft.arrive(704, contact(72, "mast, down"), at=6080)                    # 4
    draft.insert(902, frame(99), at=7112).hint(CREATOR_FROZEN)               # 5
    draft.unused()                                                           # 6
    # Directly after version 4, without a gap.
    root = draft.insert(903, voltage(91, 3.3), at=6128)                      # 7
    # A chain whose next version lies above the former.
    draft.update_hot(root, 904, voltage(91, 5.0), at=6400)                   # 8
    draft.insert(905, counter(92, 92), at=6200)                              # 9


@lawful
def odd_but_lawful(draft):
    """What looks wrong, but breaks no rule.

    Version 2 is named by version 1 alone: the versions 3 to 6 each miss one of
    the conditions.  Versions 11 and 16 name themselves.  The command id, the
    padding and the free space stand in no rule.
    """
    here = draft.block

    def hot_updated(creator, remover, ctid):
        old = draft.insert(creator, counter(creator, remover)).removed(remover, ctid)
        old.infomask2 |= HOT_UPDATED
        return old

    root = draft.insert(1000, counter(100, 1))                               # 1
    draft.update_hot(root, 1001, counter(100, 2))                            # 2
    hot_updated(1003, 1002, (here, 2))                                       # 3: other remover
    row = draft.insert(1004, counter(104, 4))                                # 4: not hot-updated
    row.removed(1001, (here, 2))
    hot_updated(1005, 1001, (here + 1, 2))                                   # 5: other block
    hot_updated(1006, 1001, (65536 + here, 2))                               # 6: far other block
    hot_updated(1007, 1000, (here, 1))                                       # 7: not heap-only
    hot_updated(1008, 1000, (here, 1))                                       # 8: the same again
    hot_updated(1009, 1001, (here, 0))                                       # 9: no such pointer
    hot_updated(1010, 1001, (4294967295, 65535))                             # 10: nowhere
    itself = draft.insert_heap_only(1011, counter(111, 11))                  # 11
    itself.removed(1011, (here, 11))
    itself.infomask2 |= HOT_UPDATED
    row = draft.insert(1012, temperature(112, 12.0))                         # 12
    row.command = 0xDEADBEEF
    draft.stray.append((row.offset + row.length, b"\xaa" * 7))
    hot_updated(1013, 1001, (here, 14))                                      # 13: unused pointer
    draft.unused()                                                           # 14
    # All the bits that may stand together.
    draft.insert(3, voltage(115, 15.0)).removed(3, (here, 15)).bits(0x2700, 0x4001)  # 15
    draft.insert(4294967295, voltage(116, 16.0)).removed(4294967295, (here, 16)) \
        .bits(0x2B00, 0xC001)                                                # 16
    free = 24 + 4 * len(draft.slots)
    draft.stray.append((free, b"\x55" * (draft.upper - free)))


# Pages that break a rule of the header.

@unlawful(1, at=HEADER)
def special_one_cell_short(draft):
    draft.special = 8184


@unlawful(2, at=HEADER)
def other_page_version(draft):
    two_rows(draft)
    draft.version = 0x2003


@unlawful(3, at=HEADER)
def flag_set(draft):
    two_rows(draft)
    draft.flags = 0x0001


@unlawful(4, at=HEADER)
def lower_inside_the_header(draft):
    draft.lower = 20


@unlawful(5, at=HEADER)
def lower_above_upper(draft):
    draft.unused()
    draft.dead()
    draft.upper = 24


@unlawful(6, at=HEADER)
def upper_beyond_the_page(draft):
    draft.upper = 8200


@unlawful(7, at=HEADER)
def half_a_pointer(draft):
    """One whole pointer and two bytes more."""
    draft.insert(1700, temperature(7, 7.0))
    draft.lower = 30


@unlawful(8, at=HEADER)
def upper_off_the_cells(draft):
    """The version lies above pd_upper all the same."""
    draft.insert(1800, temperature(8, 8.0))
    draft.upper = 8148


@unlawful(9, at=HEADER)
def one_pointer_too_many(draft):
    for _ in range(292):
        draft.unused()


# Pages that break a rule of one pointer.

@unlawful(10, at=2)
def unused_with_an_offset(draft):
    draft.insert(2000, temperature(10, 10.0))
    draft.bare(UNUSED, 8, 0)
    draft.unused()


@unlawful(10, at=1)
def unused_with_a_length(draft):
    draft.bare(UNUSED, 0, 1)
    draft.insert(2001, temperature(10, 10.5))


@unlawful(11, at=3)
def dead_with_an_offset(draft):
    two_rows(draft)
    draft.bare(DEAD, 32767, 0)


@unlawful(11, at=2)
def dead_with_a_length(draft):
    draft.dead()
    draft.bare(DEAD, 0, 32767)


@unlawful(12, at=2)
def redirect_with_a_length(draft):
    draft.insert(2200, temperature(12, 12.0))
    draft.bare(REDIRECT, 3, 33)
    draft.insert_heap_only(2201, temperature(12, 12.5))


@unlawful(13, at=2)
def version_off_the_cells(draft):
    draft.upper = 8104
    draft.insert(2300, temperature(13, 13.0), at=8104)
    draft.insert(2301, temperature(13, 13.5), at=8148)


@unlawful(14, at=3)
def version_one_cell_below_upper(draft):
    two_rows(draft)
    draft.insert(2400, temperature(14, 14.0))
    draft.upper += 8


@unlawful(15, at=2)
def version_one_cell_off_the_end(draft):
    """Its last byte, and no other, lies outside the page."""
    draft.upper = 8112
    draft.insert(2500, temperature(15, 15.0), at=8112)
    draft.insert(2501, temperature(15, 15.5), at=8160)


@unlawful(15, at=1)
def header_up_to_the_end(draft):
    """The header of the version ends with the page; its kind lies outside."""
    draft.upper = 8168
    draft.insert(2502, temperature(15, 15.75), at=8168)


@unlawful(15, at=1)
def versions_outside_the_page(draft):
    """One whose header does not fit, and one that is far away."""
    draft.upper = 8176
    draft.insert(2503, temperature(15, 16.0), at=8176)
    draft.bare(NORMAL, 32760, 32767)


@unlawful(16, at=3)
def version_without_a_row(draft):
    """The header alone; rules 17 and 18 cannot be evaluated without a kind."""
    two_rows(draft)
    draft.insert(2600, b"")


@unlawful(16, at=1)
def version_of_length_zero(draft):
    """It lies at the page's end, and ends there: rule 15 holds."""
    draft.bare(NORMAL, 8192, 0)


@unlawful(17, at=1)
def kind_zero(draft):
    """Rule 18 has no meaning for an unknown kind."""
    draft.insert(2700, struct.pack("<BII", 0, 17, 17))


@unlawful(17, at=3)
def kind_seven(draft):
    two_rows(draft)
    draft.insert(2701, struct.pack("<BII", 7, 17, 18))


@unlawful(18, at=3)
def length_of_another_kind(draft):
    """A temperature as long as a voltage."""
    two_rows(draft)
    draft.insert(2800, temperature(18, 18.0) + b"\x01\x02\x03\x04")


@unlawful(18, at=1)
def kind_without_a_body(draft):
    """25 bytes, the least that rule 16 asks for: the body is empty."""
    draft.insert(2801, b"\x01")


@unlawful(18, at=1)
def length_with_the_padding(draft):
    """It ends exactly at byte 8192: rule 15 holds."""
    draft.insert(2802, temperature(18, 18.5) + bytes(7))


@unlawful(19, at=3)
def other_hoff(draft):
    two_rows(draft)
    draft.insert(2900, counter(19, 19)).hoff = 32


@unlawful(20, at=1)
def byte_after_hoff(draft):
    draft.insert(3000, counter(20, 20)).after_hoff = 1


@unlawful(21, at=1)
def no_attribute(draft):
    draft.insert(3100, counter(21, 21)).bits(0x0800, 0x0000)


@unlawful(21, at=3)
def too_many_attributes(draft):
    """Both the lowest and the highest of the 11 bits are set."""
    two_rows(draft)
    draft.insert(3101, counter(21, 22)).bits(0x0900, 0x0401)


@unlawful(22, at=1)
def unnamed_low_bit(draft):
    draft.insert(3200, counter(22, 22)).bits(0x0801)


@unlawful(22, at=3)
def heap_only_in_the_wrong_word(draft):
    """0x8000 has a name in infomask2, but not in infomask."""
    two_rows(draft)
    draft.insert(3201, counter(22, 23)).bits(0x8800)


@unlawful(22, at=2)
def bit_above_the_count(draft):
    """0x0800 has a name in infomask, but not in infomask2."""
    draft.insert(3202, counter(22, 24))
    draft.insert(3203, counter(22, 25)).bits(0x0800, 0x0801)


@unlawful(23, at=2)
def both_remover_bits(draft):
    draft.insert(3300, counter(23, 23))
    draft.delete(draft.insert(3301, counter(23, 24)), 3302).hint(REMOVER_COMMITTED
                                                                 | REMOVER_INVALID)


@unlawful(24, at=2)
def creator_two(draft):
    draft.insert(3, counter(24, 24))
    draft.insert(2, counter(24, 25)).hint(CREATOR_FROZEN)


@unlawful(25, at=1)
def no_remover_without_the_bit(draft):
    draft.insert(3500, counter(25, 25)).bits(0x0100)


@unlawful(25, at=3)
def remover_two(draft):
    """Remover-invalid excuses the remover 0, but no other below 3."""
    two_rows(draft)
    draft.insert(3501, counter(25, 26)).remover = 2


# Pages that break a rule of several pointers.

@unlawful(26, at=2)
def overlap_by_one_cell(draft):
    """The second version starts in the last cell of the first.

    Of that cell the row of the first has one byte, the last of its body, which
    is the first byte of the second version.
    """
    draft.upper = 8112
    draft.insert(3600, temperature(26, 26.0), at=8112)
    draft.insert(3601, temperature(26, 26.5), at=8144)


@unlawful(26, at=3)
def crossed_overlaps(draft):
    """Pointers 1 and 4 share a version, and so do 2 and 3: 3 is the lowest."""
    draft.insert(3602, temperature(26, 27.0))
    draft.insert(3603, temperature(26, 27.5))
    draft.bare(NORMAL, 8112, 33)
    draft.bare(NORMAL, 8152, 33)


@unlawful(13, at=2, also=(26,))
def overlap_by_rounding_alone(draft):
    """The second version starts in the padding of the first.

    This cannot be without a second broken rule: the padding ends at the next
    multiple of 8, so what starts inside it does not start at such a multiple.
    Rule 13 is reported first.
    """
    draft.upper = 8104
    draft.insert(3604, temperature(26, 28.0), at=8104)
    draft.insert(3605, temperature(26, 28.5), at=8140)


@unlawful(27, at=3)
def redirect_to_a_plain_version(draft):
    two_rows(draft)
    draft.redirect(2)


@unlawful(27, at=1)
def redirect_to_pointer_zero(draft):
    draft.redirect(0)
    draft.insert_heap_only(3700, counter(27, 27))


@unlawful(27, at=2)
def redirect_past_the_last_pointer(draft):
    draft.insert_heap_only(3701, counter(27, 28))
    draft.redirect(3)


@unlawful(27, at=1)
def redirect_to_a_redirect(draft):
    """The second redirect is lawful."""
    draft.redirect(2)
    draft.redirect(3)
    draft.insert_heap_only(3702, counter(27, 29))


@unlawful(28, at=2)
def named_by_redirect_and_version(draft):
    draft.redirect(3)
    root = draft.insert(3800, counter(28, 28))
    draft.update_hot(root, 3801, counter(28, 29))


@unlawful(28, at=4)
def named_by_two_versions(draft):
    """The remover of the second was aborted, which the rule does not ask."""
    root = draft.insert(3802, counter(28, 30))
    new = draft.update_hot(root, 3803, counter(28, 31))
    draft.insert(3804, counter(28, 32))
    other = draft.insert(3805, counter(28, 33))
    other.removed(3803, (draft.block, new.number)).hint(REMOVER_INVALID)
    other.infomask2 |= HOT_UPDATED


@unlawful(28, at=3)
def named_by_two_redirects(draft):
    """Pointers 1 and 4 name version 5, and 2 and 3 version 6: 3 is the lowest."""
    for target in (5, 6, 6, 5):
        draft.redirect(target)
    draft.insert_heap_only(3806, counter(28, 34))
    draft.insert_heap_only(3807, counter(28, 35))


# Pages that break several rules: the order of reporting.

@unlawful(3, at=HEADER, also=(8, 10))
def header_before_pointers(draft):
    draft.flags = 0x8000
    draft.upper = 8190
    draft.bare(UNUSED, 24, 33)


@unlawful(24, at=2, also=(10, 25))
def pointer_by_pointer(draft):
    """A later pointer breaks rule 10, which has the lower number."""
    draft.insert(3900, counter(39, 1))
    draft.insert(0, counter(39, 2)).bits(0x0000)
    draft.bare(UNUSED, 24, 33)


@unlawful(26, at=6, also=(27, 28))
def overlap_before_redirect(draft):
    """Rule 28 is broken at pointer 2, 27 at 3 and 26 at 6."""
    draft.redirect(4)
    draft.redirect(4)
    draft.redirect(0)
    draft.insert_heap_only(3901, counter(39, 3))
    draft.insert(3902, counter(39, 4))
    draft.bare(NORMAL, 8112, 33)


@unlawful(27, at=4, also=(28,))
def redirect_before_naming(draft):
    """Rule 28 is broken at pointer 2, and 27 at 4, a redirect to an unused pointer."""
    draft.redirect(3)
    draft.redirect(3)
    draft.insert_heap_only(3903, counter(39, 5))
    draft.redirect(5)
    draft.unused()


@unlawful(1, at=HEADER, also=(2, 4))
def all_zero_bytes(draft):
    draft.whole = bytes(PAGE_SIZE)


@unlawful(1, at=HEADER, also=(2, 3, 6, 7, 8, 9, 11))
def all_one_bits(draft):
    """pd_lower is 65535: 2,042 pointers are shown, as many as the page holds."""
    draft.whole = b"\xff" * PAGE_SIZE


# ---------------------------------------------------------------------------
# The image as a whole.
# ---------------------------------------------------------------------------

def build_page(spec: Spec, block: int) -> bytes:
    """The bytes of a page, after the reader has agreed to its verdict."""
    draft = Draft(block)
    spec.build(draft)
    page = draft.pack()
    require(len(page) == PAGE_SIZE, f"{spec.name} has {len(page)} bytes")
    breaks = page_breaks(page, block)
    verdict = breaks[0] if breaks else None
    require(verdict == spec.verdict,
            f"{spec.name}: {spec.verdict} by hand, but {verdict} by the reader")
    broken = frozenset(found.rule for found in breaks)
    require(broken == spec.broken,
            f"{spec.name}: {sorted(spec.broken)} by hand, but {sorted(broken)} by the reader")
    return page


def build_image() -> bytes:
    require(1 <= len(SPECS) <= MAX_PAGES, f"{len(SPECS)} pages")
    alone = {next(iter(spec.broken)) for spec in SPECS if len(spec.broken) == 1}
    require(alone == set(RULES), f"never broken alone: {sorted(set(RULES) - alone)}")
    return b"".join(build_page(spec, block) for block, spec in enumerate(SPECS))


def differs(path: Path, expected: bytes) -> bool:
    if path.is_file() and path.read_bytes() == expected:
        return False
    print(f"heap_image: {path.relative_to(ROOT)} differs", file=sys.stderr)
    return True


def main() -> int:
    parser = argparse.ArgumentParser(description="Make the test image of the page inspector.")
    parser.add_argument("--check", action="store_true",
                        help="compare only; exit 1 on a difference")
    arguments = parser.parse_args()
    image = build_image()
    files = {IMAGE_FILE: image, TEXT_FILE: inspect(image, IMAGE_ARGUMENT).encode()}
    if arguments.check:
        return int(any([differs(path, data) for path, data in files.items()]))
    for path, data in files.items():
        path.parent.mkdir(parents=True, exist_ok=True)
        path.write_bytes(data)
    return 0


if __name__ == "__main__":
    sys.exit(main())
