"""What an opening finds in an image, written once more by the document IMAGE: nothing of the program is read here."""
from dataclasses import dataclass

from .records import BadRecord, site_of
from .site import Refused, admin_of, host_of

SECTOR, PAGE = 512, 4096
LEAST_SECTORS = 128
ROOT, TREE = b"GOPHROOT", b"GOPHPAGE"
# the heads of a root sector and of a tree page
ROOT_HEAD = PAGE_HEAD = 24
# how many bytes of a slot's record stand in each of its sectors
PART = SECTOR - ROOT_HEAD
LEAST_PAGES, MOST_PAGES = 16, 65_536
MOST_HEIGHT = 16
MOST_KEY, MOST_VALUE = 300, 1024
# the version that is opened as a site, and all whose trees are walked
VERSION, VERSIONS = 2, (1, 2)


class Unopened(Exception):
    """An image is refused, by the name that the fault has."""


def number(data, at, count):
    return int.from_bytes(data[at : at + count], "big")


@dataclass
class Record:
    """What a root slot says."""

    version: int
    pages: int
    tree: int
    height: int
    pairs: int
    host: bytes
    port: int
    admin: bytes


def record_of(data, sectors):
    """The record that some bytes are on a device of so many sectors, or none."""
    version, pages, tree = number(data, 0, 2), number(data, 2, 4), number(data, 6, 4)
    height, pairs, at = number(data, 10, 2), number(data, 12, 8), 21 + data[20]
    host, port, end = data[21:at], number(data, at, 2), at + 3 + data[at + 2]
    admin = data[at + 3 : end]
    try:
        host_of(host)
        admin_of(admin)
    except Refused:
        return None
    if not LEAST_PAGES <= pages <= MOST_PAGES or 8 * pages > sectors or port == 0 or any(data[end:]):
        return None
    return Record(version, pages, tree, height, pairs, host, port, admin)


def root_sector(image, sector):
    """The seal of a root sector and its part of the record, or none where it hasn't magic word and number."""
    data = image[sector * SECTOR : (sector + 1) * SECTOR]
    if data[:8] != ROOT or number(data, 8, 8) != sector:
        return None
    return number(data, 16, 8), data[ROOT_HEAD:]


def slot_of(image, slot):
    """The seal and the record of a valid slot, or none."""
    found = [root_sector(image, 8 * slot + it) for it in range(8)]
    if None in found or len({seal for seal, _ in found}) > 1:
        return None
    record = record_of(b"".join(part for _, part in found), len(image) // SECTOR)
    return None if record is None else (found[0][0], record)


def current(image):
    """The current slot, with its seal and its record."""
    valid = [(it, *slot_of(image, it)) for it in (0, 1) if slot_of(image, it)]
    if not valid:
        raise Unopened("NoImage")
    return max(valid, key=lambda it: (it[1], -it[0]))


def entries_of(page, is_leaf):
    """The entries of a page, a key with what stands beside it, or none where a length isn't right or they don't end in zeros."""
    entries, at = [], PAGE_HEAD
    for _ in range(number(page, 22, 2)):
        size, other = number(page, at, 2), number(page, at + 2, 2 if is_leaf else 4)
        at += 4 if is_leaf else 6
        more = other if is_leaf else 0
        if size > MOST_KEY or more > MOST_VALUE or at + size + more > PAGE:
            return None
        key, value = page[at : at + size], page[at + size : at + size + more]
        entries.append((key, value if is_leaf else other))
        at += size + more
    return None if any(page[at:]) else entries


class Walk:
    """The pages that a slot's tree reaches, and its pairs."""

    def __init__(self, image, slot, seal, record):
        self.image, self.slot, self.seal, self.record = image, slot, seal, record
        self.reached, self.pairs = set(), []
        # the pages of each level, in the order of their keys
        self.levels = {}
        if record.height > MOST_HEIGHT or not (self.is_page(record.tree) if record.height else record.tree == 0):
            raise Unopened(f"Damaged {slot}")
        if record.height:
            self.walk(record.tree, record.height - 1, b"", None)
        if len(self.pairs) != record.pairs:
            raise Unopened(f"Damaged {slot}")

    def is_page(self, page):
        return 2 <= page < self.record.pages

    def is_well_formed(self, entries, level, low, high):
        """Keys rise within their bounds. Those of a leaf aren't empty; of a branch the first is, and it names pages that are there."""
        keys = [key for key, _ in entries or ()]
        if level and keys:
            if keys.pop(0) or not all(self.is_page(child) for _, child in entries):
                return False
        elif not keys:
            return False
        rise = all(one < two for one, two in zip(keys, keys[1:]))
        return rise and all(key and key >= low and (high is None or key < high) for key in keys)

    def walk(self, place, level, low, high):
        """The page at this place, all below it, and whose keys are at least one and less than another, if that is there."""
        page = self.image[place * PAGE : (place + 1) * PAGE]
        is_this = page[:8] == TREE and number(page, 8, 4) == place and place not in self.reached
        if not (is_this and 1 <= number(page, 12, 8) <= self.seal and number(page, 20, 2) == level):
            raise Unopened(f"Damaged {place}")
        entries = entries_of(page, level == 0)
        if not self.is_well_formed(entries, level, low, high):
            raise Unopened(f"Damaged {place}")
        self.reached.add(place)
        self.levels.setdefault(level, []).append(place)
        if level == 0:
            self.pairs += entries
            return
        ends = [key for key, _ in entries[1:]] + [high]
        for (key, child), end in zip(entries, ends):
            self.walk(child, level - 1, key or low, end)


def walked(image):
    """The walk of an image, which tells its slot, seal and record too."""
    if len(image) // SECTOR < LEAST_SECTORS:
        raise Unopened("Small")
    slot, seal, record = current(image)
    if record.version not in VERSIONS:
        raise Unopened("Version")
    return Walk(image, slot, seal, record)


def found(image):
    """The walk and the site of an image."""
    walk = walked(image)
    if walk.record.version != VERSION:
        raise Unopened("Version")
    try:
        return walk, site_of(dict(walk.pairs), walk.record)
    except BadRecord as it:
        raise Unopened("BadRecord") from it


def checked(image):
    """The line that `check` prints of an image: its figures, or the fault."""
    try:
        walk, site = found(image)
    except Unopened as fault:
        return f"image: {fault.args[0]}"
    free = walk.record.pages - 2 - len(walk.reached)
    return f"items {len(site.items)} keys {len(walk.pairs)} free {free} generation {walk.seal}"
