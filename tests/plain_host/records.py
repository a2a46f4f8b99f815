"""How a site's items stand in the pairs of an image, written once more by the document IMAGE: nothing of the program is read here."""
from .site import (
    GREATEST_MOMENT, KINDS, LINK_KINDS, MOST_VIEW_BYTES, Item, Refused, Site, host_of, is_bad_body, is_long_body, prompt_of, selector_of, title_of,
    url_of, words_of,
)

CHUNK = 1000
NEVER = 2**64 - 1
MOST_MENU, LEAST_FORM, MOST_FORM = 100 * 431, 3, 16 * 482
# what the views of a document may have together in an image of version 1
MOST_FIRST_VIEW_BYTES = 65_536
LETTERS = {"views": b"V", "menu": b"M", "board": b"B", "form": b"F", "search": b"S", "moved": b"R"}


class BadRecord(Exception):
    """Some pairs are no site's."""


def short(text):
    return bytes([len(text)]) + text


def entry(it):
    """The bytes of an entry of a menu or a question of a form."""
    word, parts = it[0], it[1:]
    if word == "remote":
        kind, title, selector, host, port = parts
        return b"R" + kind + short(title) + short(selector) + short(host) + port.to_bytes(2, "big")
    if word == "choose":
        return b"C" + short(parts[0]) + bytes([len(parts[1])]) + b"".join(map(short, parts[1]))
    letter = {"local": b"L", "info": b"i", "url": b"h", "ask": b"A", "askl": b"L", "askp": b"P"}[word]
    return letter + b"".join(map(short, parts))


def parts_of(body):
    """What an item has beside its record, part by part."""
    if body[0] == "views":
        return [it[2] for it in body[2]]
    if body[0] in ("menu", "form"):
        return [b"".join(map(entry, body[-1]))]
    return []


def tail_of(body):
    """What stands in a record behind the summary."""
    lengths = [len(it).to_bytes(4, "big") for it in parts_of(body)]
    if body[0] == "views":
        views = (short(name) + short(language) + length for (name, language, _), length in zip(body[2], lengths))
        return body[1] + bytes([len(body[2])]) + b"".join(views)
    if body[0] == "board":
        return body[1].to_bytes(2, "big") + body[2].to_bytes(8, "big")
    if body[0] == "menu":
        return lengths[0]
    return short(body[1]) + b"".join(lengths)


def record_of(item, version=2):
    until = (NEVER if item.until is None else item.until).to_bytes(8, "big") if version > 1 else b""
    head = LETTERS[item.body[0]] + item.stamp.to_bytes(8, "big") + until + short(item.title)
    return head + len(item.summary).to_bytes(2, "big") + item.summary + tail_of(item.body)


def chunk_key(selector, part, place):
    return b"C" + short(selector) + bytes([part]) + place.to_bytes(2, "big")


def pairs_of_item(selector, item, version=2):
    pairs = {b"I" + selector: record_of(item, version)}
    for part, text in enumerate(parts_of(item.body)):
        for at in range(0, len(text), CHUNK):
            pairs[chunk_key(selector, part, at // CHUNK)] = text[at : at + CHUNK]
    return pairs | {b"W" + short(word) + selector: b"" for word in words_of(item)}


def pairs_of(site, version=2):
    """All pairs of a site, by their keys."""
    pairs = {}
    for selector, item in site.items.items():
        pairs |= pairs_of_item(selector, item, version)
    return pairs


class Bytes:
    """Bytes that are taken from the front."""

    def __init__(self, data):
        self.data = data

    def take(self, count):
        if count > len(self.data):
            raise BadRecord
        taken, self.data = self.data[:count], self.data[count:]
        return taken

    def number(self, count):
        return int.from_bytes(self.take(count), "big")

    def short(self):
        return self.take(self.number(1))

    def letter(self, letters):
        letter = self.take(1)
        if letter not in letters:
            raise BadRecord
        return letter


def moment(number):
    if number > GREATEST_MOMENT:
        raise BadRecord
    return number


def read_entry(it):
    letter = it.take(1)
    if letter == b"L":
        return "local", selector_of(it.short())
    if letter == b"i":
        return "info", title_of(it.short())
    if letter == b"h":
        return "url", title_of(it.short()), url_of(it.short())
    if letter != b"R":
        raise BadRecord
    made = "remote", it.letter(LINK_KINDS), title_of(it.short()), selector_of(it.short()), host_of(it.short()), it.number(2)
    if made[-1] == 0:
        raise BadRecord
    return made


def read_question(it):
    letter = it.take(1)
    if letter in (b"A", b"L"):
        return "ask" if letter == b"A" else "askl", prompt_of(it.short())
    if letter == b"P":
        return "askp", prompt_of(it.short()), it.short()
    if letter != b"C":
        raise BadRecord
    return "choose", prompt_of(it.short()), [it.short() for _ in range(it.number(1))]


def all_of(read, data):
    left, made = Bytes(data), []
    while left.data:
        made.append(read(left))
    return made


class Reader:
    """Items of an image of some version, by their pairs."""

    def __init__(self, pairs, version):
        self.pairs, self.version = pairs, version
        self.most = MOST_VIEW_BYTES if version > 1 else MOST_FIRST_VIEW_BYTES

    def part(self, selector, place, length):
        """A part of so many bytes, from its chunks."""
        keys = [chunk_key(selector, place, it) for it in range((length + CHUNK - 1) // CHUNK)]
        text = b"".join(self.pairs.get(key, b"") for key in keys)
        if len(text) != length:
            raise BadRecord
        return text

    def views(self, selector, it):
        kind, count = it.letter(KINDS), it.number(1)
        heads = [(it.short(), it.short(), it.number(4)) for _ in range(count)]
        if sum(length for _, _, length in heads) > self.most:
            raise BadRecord
        texts = [self.part(selector, place, length) for place, (_, _, length) in enumerate(heads)]
        return "views", kind, [(name, language, text) for (name, language, _), text in zip(heads, texts)]

    def body(self, selector, letter, it):
        if letter == b"V":
            return self.views(selector, it)
        if letter == b"B":
            return "board", it.number(2), it.number(8)
        if letter == b"S":
            return "search", selector_of(it.short())
        if letter == b"R":
            return "moved", selector_of(it.short())
        board = selector_of(it.short()) if letter == b"F" else None
        length = it.number(4)
        if not (length <= MOST_MENU if letter == b"M" else LEAST_FORM <= length <= MOST_FORM):
            raise BadRecord
        text = self.part(selector, 0, length)
        return ("menu", all_of(read_entry, text)) if letter == b"M" else ("form", board, all_of(read_question, text))

    def item(self, selector, record):
        it = Bytes(record)
        letter, stamp = it.letter(b"VMBFSR"), moment(it.number(8))
        until = it.number(8) if self.version > 1 else NEVER
        until = None if until == NEVER else moment(until)
        title, summary = title_of(it.short()), it.take(it.number(2))
        made = Item(title, stamp, until, summary, self.body(selector, letter, it))
        if it.data or len(summary) > 400 or is_bad_body(made.body) or is_long_body(selector, made.body):
            raise BadRecord
        return made


def is_post(site, selector):
    """Whether a selector that begins as those of posts do is one of a board's last ones."""
    front, _, digits = selector.rpartition(b"/")
    board, item = site.items.get(front[5:]), site.items[selector]
    if board is None or not board.is_a("board") or not digits.isdigit() or digits.startswith(b"0") or len(front) < 5:
        return False
    _, cap, following = board.body
    is_text = item.is_a("views") and item.body[1] == b"0" and [it[:2] for it in item.body[2]] == [(b"Text/plain", b"")]
    return is_text and int(digits) < following <= int(digits) + cap


def keeps_rules(site):
    if b"" not in site.items or not site.items[b""].is_a("menu"):
        return False
    for selector, item in site.items.items():
        is_lawful = is_post(site, selector) if selector.startswith(b"post/") else not selector.startswith(b"URL:")
        if not is_lawful or item.is_a("board") and item.body[2] == 0:
            return False
    return True


def site_of(pairs, record, version=2):
    """The site whose layout some pairs are."""
    reader = Reader(pairs, version)
    site = Site(record.host, record.port, record.admin, b"", 0)
    try:
        site.items = {selector_of(key[1:]): reader.item(key[1:], value) for key, value in pairs.items() if key[:1] == b"I"}
    except Refused as it:
        raise BadRecord from it
    if not keeps_rules(site) or pairs_of(site, version) != pairs:
        raise BadRecord
    return site
