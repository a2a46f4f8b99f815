"""Images that are written byte by byte, by the document IMAGE, and changes of their bytes: nothing of the program is read here."""
from dataclasses import replace

from .image import PAGE, PAGE_HEAD, PART, ROOT, SECTOR, TREE, Record, entries_of, number, walked

# where the fields of a page's head, and those of a slot's record, stand in their page, and how many bytes they have
PAGE_FIELDS = {"number": (8, 4), "generation": (12, 8), "level": (20, 2), "count": (22, 2)}
RECORD_FIELDS = {"version": (24, 2), "pages": (26, 4), "tree": (30, 4), "height": (34, 2), "pairs": (36, 8)}


def big(value, count):
    return value.to_bytes(count, "big")


def filled(data, length):
    return data + bytes(length - len(data))


def record_bytes(it):
    front = big(it.version, 2) + big(it.pages, 4) + big(it.tree, 4) + big(it.height, 2) + big(it.pairs, 8)
    return front + bytes([len(it.host)]) + it.host + big(it.port, 2) + bytes([len(it.admin)]) + it.admin


def slot_page(slot, seal, data):
    """A root slot whose record has these bytes."""
    data = filled(data, 8 * PART)
    return b"".join(ROOT + big(8 * slot + it, 8) + big(seal, 8) + data[it * PART : (it + 1) * PART] for it in range(8))


def tree_page(place, generation, level, entries):
    """A leaf of pairs, or a branch of keys with the pages of its children."""
    data = TREE + big(place, 4) + big(generation, 8) + big(level, 2) + big(len(entries), 2)
    for key, other in entries:
        data += big(len(key), 2) + (big(other, 4) + key if level else big(len(other), 2) + key + other)
    return filled(data, PAGE)


def runs(pairs):
    """Pairs in rising order, cut into leaves of about two thirds."""
    made, size = [[]], 0
    for key, value in sorted(pairs.items()):
        size += 4 + len(key) + len(value)
        if made[-1] and size > 2700:
            made.append([])
            size = 4 + len(key) + len(value)
        made[-1].append((key, value))
    return made


def image_of(pairs, version=2, pages=64, **banner):
    """An image of some pairs: leaves from page 3 on, and a branch over them on page 2; the second slot is no slot."""
    leaves = runs(pairs) if pairs else []
    height = 2 if pairs else 0
    names = {"host": b"localhost", "port": 7070, "admin": b"Ada", **banner}
    record = Record(version, pages, 2 if pairs else 0, height, len(pairs), **names)
    made = slot_page(0, 1, record_bytes(record)) + bytes(PAGE)
    if pairs:
        first = [b""] + [leaf[0][0] for leaf in leaves[1:]]
        made += tree_page(2, 1, 1, [(key, 3 + at) for at, key in enumerate(first)])
        made += b"".join(tree_page(3 + at, 1, 0, leaf) for at, leaf in enumerate(leaves))
    return filled(made, pages * PAGE)


def chain_of(pairs, height):
    """An image of a few pairs in one leaf, under so many levels of branches with one child each that the tree is as high as that."""
    record = Record(2, 64, 2, height, len(pairs), b"localhost", 7070, b"Ada")
    pages = [tree_page(2 + at, 1, height - 1 - at, [(b"", 3 + at)]) for at in range(height - 1)]
    made = slot_page(0, 1, record_bytes(record)) + bytes(PAGE) + b"".join(pages) + tree_page(1 + height, 1, 0, sorted(pairs.items()))
    return filled(made, 64 * PAGE)


def page_of(image, place):
    return image[place * PAGE : (place + 1) * PAGE]


def with_page(image, place, page):
    return image[: place * PAGE] + page + image[(place + 1) * PAGE :]


def with_bytes(image, at, data):
    return image[:at] + data + image[at + len(data) :]


def with_field(image, place, name, value):
    """A tree page's field has this value."""
    at, count = PAGE_FIELDS[name]
    return with_bytes(image, place * PAGE + at, big(value, count))


def said(image, slot, **fields):
    """A slot's record says this."""
    for name, value in fields.items():
        at, count = RECORD_FIELDS[name]
        image = with_bytes(image, slot * PAGE + at, big(value, count))
    return image


def with_seal(image, slot, seal):
    for sector in range(8 * slot, 8 * slot + 8):
        image = with_bytes(image, sector * SECTOR + 16, big(seal, 8))
    return image


def entries_at(image, place):
    page = page_of(image, place)
    return entries_of(page, number(page, 20, 2) == 0)


def places_of_entries(image, place):
    """Where the entries of a page begin in the image, and where they end."""
    level = number(page_of(image, place), 20, 2)
    places = [place * PAGE + PAGE_HEAD]
    for key, other in entries_at(image, place):
        places.append(places[-1] + (6 + len(key) if level else 4 + len(key) + len(other)))
    return places


def with_entries(image, place, entries):
    """A page has these entries, and as many as it says."""
    page = page_of(image, place)
    return with_page(image, place, tree_page(place, number(page, 12, 8), number(page, 20, 2), entries))


def with_entry(image, place, at, key, other):
    """One entry of a page is another one."""
    entries = entries_at(image, place)
    entries[at] = (key, other)
    return with_entries(image, place, entries)


def swapped(image, one, two):
    """Two pages have each other's bytes."""
    first, second = page_of(image, one), page_of(image, two)
    return with_page(with_page(image, one, second), two, first)


def renamed(image, one, two):
    """The current tree in which two pages have each other's numbers; one of them may be no page of it."""
    walk, new = walked(image), {one: two, two: one}
    made = swapped(image, one, two)
    for level, places in walk.levels.items():
        for place in places:
            at = new.get(place, place)
            made = with_field(made, at, "number", at)
            if level:
                made = with_entries(made, at, [(key, new.get(child, child)) for key, child in entries_at(made, at)])
    return said(made, walk.slot, tree=new.get(walk.record.tree, walk.record.tree))


def with_banner(image, slot, record, seal, **banner):
    """A slot written anew, with another banner."""
    return with_page(image, slot, slot_page(slot, seal, record_bytes(replace(record, **banner))))
