"""Damaged images, each with what `check` has to say of it, as tests/damaged tries them.

Each is what it shows, the image, and the line: that of the figures, or the fault. Lines are worked out by the document IMAGE."""
import re

from plain_host.image import PAGE, SECTOR, walked
from plain_host.made_images import (
    entries_at, places_of_entries, renamed, said, swapped, with_banner, with_bytes, with_entries, with_entry, with_field, with_page, with_seal,
)

GREATEST = 2**64 - 1
NO_IMAGE, VERSION, BAD, SMALL = "image: NoImage", "image: Version", "image: BadRecord", "image: Small"


def damaged(page):
    return f"image: Damaged {page}"


def with_generation(line, generation):
    return re.sub(r"\d+$", str(generation), line)


def sector_damages(image, sector, seal):
    """What makes one sector of a slot another one's, or none's."""
    at = sector * SECTOR
    yield "magic word", with_bytes(image, at + 7, b"t")
    yield "number", with_bytes(image, at + 8, (sector ^ 1).to_bytes(8, "big"))
    yield "number past 32 bits", with_bytes(image, at + 11, b"\1")
    yield "greater seal", with_bytes(image, at + 16, (seal + 1).to_bytes(8, "big"))
    yield "lesser seal", with_bytes(image, at + 16, (seal - 1).to_bytes(8, "big"))
    yield "zeros", with_bytes(image, at, bytes(SECTOR))


def slot_rows(image, line, older_line):
    """Root slots that aren't valid, and which is current."""
    walk = walked(image)
    slot, other, seal = walk.slot, 1 - walk.slot, walk.seal
    for sector in range(16):
        of_current = sector // 8 == slot
        for what, made in sector_damages(image, sector, seal if of_current else seal - 1):
            yield f"sector {sector}: {what}", made, older_line if of_current else line
    both = with_bytes(with_bytes(image, 3 * SECTOR, b"X"), 12 * SECTOR + 8, b"\1")
    yield "a sector of each slot", both, NO_IMAGE
    yield "no slot", with_bytes(image, 0, bytes(2 * PAGE)), NO_IMAGE
    yield "the slots in each other's place", swapped(image, 0, 1), NO_IMAGE
    equal = with_seal(image, other, seal)
    yield "equal seals", equal, line if slot == 0 else with_generation(older_line, seal)
    yield "equal seals, and slot 0 is none", with_bytes(equal, 5 * SECTOR, b"X"), with_generation(older_line, seal) if slot == 0 else line
    yield "the older slot with a greater seal", with_seal(image, other, seal + 1), with_generation(older_line, seal + 1)
    yield "the greatest seal", with_seal(image, slot, GREATEST), with_generation(line, GREATEST)
    yield "seal 0 beside another slot", with_seal(image, slot, 0), older_line
    alone = with_page(image, other, bytes(PAGE))
    yield "one slot alone", alone, line
    yield "seal 0 alone", with_seal(alone, slot, 0), damaged(walk.record.tree)
    yield "a seal below the tree's generation", with_seal(alone, slot, seal - 1), damaged(walk.record.tree)
    yield "an older slot that names no tree", said(image, other, height=17, tree=1), line


def banner_rows(image, line, older_line):
    """Names in the current slot that a record may not have, so that the other one is current; and the greatest that it may have."""
    walk = walked(image)
    wrong = {
        "host": [b"", b"a b", b"a\x7f", b"h" * 101, b"h" * 255],
        "port": [0],
        "admin": [b"a" * 101, b"a\tb", b"a\rb", b"a\nb", b"a\0b", b"a" * 255],
        "pages": [0, 15, walk.record.pages + 1, 65_537, 2**32 - 1],
    }
    right = {"host": [b"h" * 100, b"!~"], "port": [1, 65_535], "admin": [b"", b"a" * 100, b"\x7f\xff\1"]}
    for names, told in ((wrong, older_line), (right, line)):
        for name, values in names.items():
            for value in values:
                yield f"{name} {value!r}", with_banner(image, walk.slot, walk.record, walk.seal, **{name: value}), told
    behind = walk.slot * PAGE + 24 + 24 + len(walk.record.host + walk.record.admin)
    for what, at in (("behind the names", behind), ("in sector 4", walk.slot * PAGE + 4 * SECTOR + 24), ("at the end", (walk.slot + 1) * PAGE - 1)):
        yield f"a byte {what}", with_bytes(image, at, b"\1"), older_line


def record_rows(image, line):
    """What the current slot says of its tree."""
    walk = walked(image)
    slot, record, pages = walk.slot, walk.record, walk.record.pages
    leaf, free = walk.levels[0][-1], max({*range(2, pages)} - walk.reached)
    torn = with_bytes(image, leaf * PAGE, b"X")
    for version in (0, 3, 65_535):
        yield f"version {version}", said(image, slot, version=version), VERSION
        yield f"version {version} over a damaged page", said(torn, slot, version=version), VERSION
        yield f"version {version} in the older slot", said(image, 1 - slot, version=version), line
    yield "version 1", said(image, slot, version=1), VERSION
    yield "version 1 over a damaged page", said(torn, slot, version=1), damaged(leaf)
    fewer = re.sub(r"free (\d+)", lambda it: f"free {int(it[1]) - 1}", line)
    yield "a page less", said(image, slot, pages=pages - 1), fewer
    for height in (0, 17, 65_535):
        yield f"height {height}", said(image, slot, height=height), damaged(slot)
    yield "a level more", said(image, slot, height=record.height + 1), damaged(record.tree)
    if record.height > 1:
        yield "a level less", said(image, slot, height=record.height - 1), damaged(record.tree)
        yield "a leaf as the tree page", said(image, slot, tree=leaf), damaged(leaf)
    for tree in (0, 1, pages, 2**32 - 1):
        yield f"tree page {tree}", said(image, slot, tree=tree), damaged(slot)
    yield "a free page as the tree page", with_page(said(image, slot, tree=free), free, bytes(PAGE)), damaged(free)
    for pairs in (0, record.pairs - 1, record.pairs + 1, GREATEST):
        yield f"{pairs} pairs", said(image, slot, pairs=pairs), damaged(slot)
    yield "wrong pairs over a damaged page", said(torn, slot, pairs=1), damaged(leaf)
    yield "no tree, and pairs", said(image, slot, height=0, tree=0), damaged(slot)
    yield "no tree, and no pairs", said(image, slot, height=0, tree=0, pairs=0), BAD
    for tree in (1, record.tree, pages):
        yield f"no level and no pairs over tree page {tree}", said(image, slot, height=0, tree=tree, pairs=0), damaged(slot)


def head_rows(image, place, line):
    """The head of a tree page."""
    walk, entries = walked(image), entries_at(image, place)
    level = next(it for it, places in walk.levels.items() if place in places)
    fault = damaged(place)
    yield "magic word", with_bytes(image, place * PAGE, b"gOPHPAGE"), fault
    yield "magic word of a root sector", with_bytes(image, place * PAGE, b"GOPHROOT"), fault
    yield "magic word of flat pages", with_bytes(image, place * PAGE, b"GOPHFLAT"), fault
    yield "zeros", with_page(image, place, bytes(PAGE)), fault
    for number in (0, place + 1, place + 2**24, 2**32 - 1):
        yield f"number {number}", with_field(image, place, "number", number), fault
    for generation in (0, walk.seal + 1, GREATEST):
        yield f"generation {generation}", with_field(image, place, "generation", generation), fault
    for generation in (1, walk.seal):
        yield f"generation {generation}", with_field(image, place, "generation", generation), line
    for other in {level + 1, level ^ 1, 16, 65_535} - {level}:
        yield f"level {other}", with_field(image, place, "level", other), fault
    for count in {0, len(entries) - 1, len(entries) + 1, 256, 65_535} - {len(entries)}:
        yield f"{count} entries", with_field(image, place, "count", count), fault
    end = places_of_entries(image, place)[-1]
    for at in {end, (place + 1) * PAGE - 1}:
        yield "a byte behind the entries", with_bytes(image, at, b"\1"), fault


def order_rows(image, place):
    """Keys of a page that don't rise, and lengths that aren't right."""
    entries, places, fault = entries_at(image, place), places_of_entries(image, place), damaged(place)
    last, is_leaf = len(entries) - 1, any(place in it for level, it in walked(image).levels.items() if level == 0)
    for at in {0, 1, last // 2, last} if is_leaf else {1, last}:
        for size in (0, 301, 4096, 65_535):
            yield f"entry {at}: key length {size}", with_bytes(image, places[at], size.to_bytes(2, "big")), fault
    for at in range(1 if is_leaf else 2, min(last + 1, 4)):
        yield f"keys {at - 1} and {at} are equal", with_entry(image, place, at, entries[at - 1][0], entries[at][1]), fault
        turned = [*entries[: at - 1], entries[at], entries[at - 1], *entries[at + 1 :]]
        yield f"keys {at - 1} and {at} fall", with_entries(image, place, turned), fault
    short = entries[: 1 + last // 2]
    yield "a key of 301 bytes", with_entries(image, place, [*short, (b"~" * 301, entries[last][1])]), fault


def leaf_rows(image, place, line):
    """All that may be wrong in a leaf but its bounds."""
    yield from head_rows(image, place, line)
    yield from order_rows(image, place)
    entries, places = entries_at(image, place), places_of_entries(image, place)
    for at in {0, len(entries) - 1}:
        for size in (1025, 4096, 65_535):
            yield f"entry {at}: value length {size}", with_bytes(image, places[at] + 2, size.to_bytes(2, "big")), damaged(place)
    # the last entry takes a zero from behind
    for what, at, size in (("key", 0, len(entries[-1][0])), ("value", 2, len(entries[-1][1]))):
        yield f"the last {what} a byte longer", with_bytes(image, places[-2] + at, (size + 1).to_bytes(2, "big")), BAD
    yield "an empty key", with_entries(image, place, [(b"", b""), *entries[1:]]), damaged(place)
    few = entries[:1]
    yield "a value of 1,025 bytes", with_entries(image, place, [*few, (few[0][0] + b"\0", bytes(1025))]), damaged(place)


def bound_rows(image, branch, line):
    """Keys of leaves, and of the branch above them, that are not between the bounds; and a bound that is moved so that they are."""
    children = entries_at(image, branch)
    for at in range(1, min(len(children), 4)):
        (key, leaf), before = children[at], children[at - 1][1]
        first, last = entries_at(image, leaf)[0], entries_at(image, before)[-1]
        yield f"leaf {at}: a key below its bound", with_entry(image, leaf, 0, key[:-1], first[1]), damaged(leaf)
        yield f"leaf {at - 1}: a key that is the next bound", with_entry(image, before, -1, key, last[1]), damaged(before)
        yield f"leaf {at - 1}: a key past the next bound", with_entry(image, before, -1, key + b"\0", last[1]), damaged(before)
        yield f"bound {at} past a key", with_entry(image, branch, at, first[0] + b"\0", leaf), damaged(leaf)
        yield f"bound {at} at a key before", with_entry(image, branch, at, last[0], leaf), damaged(before)
        yield f"bound {at} just past a key before", with_entry(image, branch, at, last[0] + b"\0", leaf), line
        yield f"bound {at} at its first key", with_entry(image, branch, at, first[0], leaf), line


def branch_rows(image, branch, line):
    """All that may be wrong in a branch over leaves."""
    pages, children, fault = walked(image).record.pages, entries_at(image, branch), damaged(branch)
    free = max({*range(2, pages)} - walked(image).reached)
    yield from head_rows(image, branch, line)
    yield from order_rows(image, branch)
    yield from bound_rows(image, branch, line)
    yield "a first key that isn't empty", with_entry(image, branch, 0, b"C", children[0][1]), fault
    yield "a second key that is empty", with_entry(image, branch, 1, b"", children[1][1]), fault
    for at in {0, 1, len(children) - 1}:
        key, own = children[at]
        for child in (0, 1, pages, pages + 1, 65_536, 2**32 - 1):
            yield f"entry {at}: page {child}", with_entry(image, branch, at, key, child), fault
        yield f"entry {at}: its own page", with_entry(image, branch, at, key, branch), fault
        yield f"entry {at}: a page of zeros", with_page(with_entry(image, branch, at, key, free), free, bytes(PAGE)), damaged(free)
        for twice in {children[0][1], children[-1][1]} - {own}:
            yield f"entry {at}: page {twice} twice", with_entry(image, branch, at, key, twice), damaged(twice)
    yield "a child too far over a damaged leaf", with_bytes(with_entry(image, branch, -1, b"~", pages), children[0][1] * PAGE, b"X"), fault


def first_rows(image, branch):
    """Of two damaged pages the one that the walk comes to first is named, whichever number it has."""
    children = [child for _, child in entries_at(image, branch)]
    one, two = children[1], children[2]
    for one, two in ((one, two), (two, one)):
        made = image if children.index(one) < children.index(two) else renamed(image, one, two)
        both = with_field(with_page(made, two, bytes(PAGE)), one, "level", 9)
        yield f"pages {one} and {two}, in this order of keys", both, damaged(one)
        yield f"pages {one} and {two} under a branch that is wrong", with_bytes(both, (branch + 1) * PAGE - 1, b"\1"), damaged(branch)


def deep_rows(image):
    """A tree of three levels: branches between bounds, and the order of the walk."""
    levels, root = walked(image).levels, walked(image).record.tree
    one, two = levels[1][:2]
    leaf, later, pages = entries_at(image, one)[-1][1], entries_at(image, two)[0][1], walked(image).record.pages
    low = entries_at(image, root)[1][0]
    first, last = entries_at(image, two)[1], entries_at(image, one)[-1]
    below = with_entry(image, two, 1, low[:-1], first[1])
    yield "a branch's key below its bound", below, damaged(two)
    yield "a branch's key that is its bound", with_entry(image, two, 1, low, first[1]), damaged(later)
    yield "a branch's key that is the next bound", with_entry(image, one, -1, low, last[1]), damaged(one)
    yield "a branch's key past the next bound", with_entry(image, one, -1, low + b"\0", last[1]), damaged(one)
    first, last = entries_at(image, later)[0], entries_at(image, leaf)[-1]
    yield "a leaf's key below the bound of the branch over it", with_entry(image, later, 0, low[:-1], first[1]), damaged(later)
    yield "a leaf's key that is the bound of the next branch", with_entry(image, leaf, -1, low, last[1]), damaged(leaf)
    yield "a leaf before a branch", with_page(below, leaf, bytes(PAGE)), damaged(leaf)
    yield "a branch before its leaves", with_page(below, later, bytes(PAGE)), damaged(two)
    yield "the root before a branch", with_entry(below, root, 1, low, pages), damaged(root)
    yield "a leaf under two branches", with_entry(image, two, 0, b"", leaf), damaged(leaf)
    yield "a branch under a branch", with_entry(image, two, 0, b"", one), damaged(one)
    yield "the root under a branch", with_entry(image, two, 0, b"", root), damaged(root)
    yield "a branch that is its own child", with_entry(image, two, 0, b"", two), damaged(two)
    yield "a leaf under the root", with_entry(image, root, 0, b"", leaf), damaged(leaf)
    yield "a branch twice", with_entry(image, root, 1, low, one), damaged(one)
    yield "a level left out", said(image, walked(image).slot, tree=one, height=2), damaged(walked(image).slot)
