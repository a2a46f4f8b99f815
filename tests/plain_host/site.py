"""A site and its changes, written once more by the documents SITE and CHANGE_FILE: nothing of the program is read here.

An item's body is a tuple whose first word says what it is: ("views", kind, [(name, language, bytes)]), ("menu", entries),
("board", cap, next), ("form", board, questions), ("search", scope), ("moved", target)."""
import re
from dataclasses import dataclass, replace

GREATEST_MOMENT = 253_402_300_799
MOST_VIEW_BYTES = 262_144
MOST_POST_BYTES = 65_536
KINDS = b"04569gIh"
LINK_KINDS = b"012456789+TgIh"
SCHEMES = (b"http://", b"https://", b"ftp://", b"gopher://")


class Refused(Exception):
    """A change that is refused, by the name of its refusal."""

    @property
    def name(self):
        return self.args[0]


@dataclass
class Item:
    title: bytes
    stamp: int
    until: int | None
    summary: bytes
    body: tuple

    def is_over(self, now):
        return self.until is not None and self.until <= now

    def is_a(self, word):
        return self.body[0] == word


def is_field(name):
    return not any(byte in b"\t\r\n\0" for byte in name)


def is_word(name):
    return all(33 <= byte <= 126 for byte in name)


def is_url(name):
    return is_word(name) and name.startswith(SCHEMES)


def named(name, least, most, test):
    """The name, where its type takes it: too many bytes are found first."""
    if len(name) > most:
        raise Refused("TooLong")
    if len(name) < least or not test(name):
        raise Refused("BadName")
    return name


def selector_of(name):
    return named(name, 0, 255, is_field)


def title_of(name):
    return named(name, 0, 69, is_field)


def prompt_of(name):
    return named(name, 1, 69, is_field)


def host_of(name):
    return named(name, 1, 100, is_word)


def admin_of(name):
    return named(name, 0, 100, is_field)


def url_of(name):
    return named(name, 1, 251, is_url)


def port_of(number):
    if number == 0:
        raise Refused("BadName")
    return number


def is_reserved(selector):
    return selector.startswith((b"URL:", b"post/"))


def is_bad_word(word):
    return not word or not is_field(word)


def is_bad_question(question):
    if question[0] == "askp":
        return is_bad_word(question[2])
    return question[0] == "choose" and (not question[2] or any(is_bad_word(it) for it in question[2]))


def is_bad_body(body):
    """Something is below its least, has bytes that it may not have, or stands twice."""
    if body[0] == "views":
        names = [(name, language) for name, language, _ in body[2]]
        wrong = any(not name or not is_word(name) or not is_word(language) for name, language in names)
        return not names or wrong or len({*names}) < len(names)
    if body[0] == "board":
        return body[1] == 0
    if body[0] == "form":
        return not body[2] or any(is_bad_question(it) for it in body[2])
    return False


def is_long_question(question):
    if question[0] == "askp":
        return len(question[2]) > 40
    return question[0] == "choose" and (len(question[2]) > 10 or any(len(it) > 40 for it in question[2]))


def is_long_body(selector, body):
    """Something is above its greatest."""
    if body[0] == "views":
        many = len(body[2]) > 8 or sum(len(it[2]) for it in body[2]) > MOST_VIEW_BYTES
        return many or any(len(name) > 40 or len(language) > 10 for name, language, _ in body[2])
    if body[0] == "menu":
        return len(body[1]) > 100
    if body[0] == "board":
        return body[1] > 100 or len(selector) > 229
    if body[0] == "form":
        return len(body[2]) > 16 or any(is_long_question(it) for it in body[2])
    return False


def words_in(text):
    """The longest runs of ASCII letters and digits, in lower case, cut to 32 bytes."""
    return [run.lower()[:32] for run in re.findall(rb"[A-Za-z0-9]+", text)]


def words_of(item):
    """The first 200 different words of an item, in their order."""
    if item.is_a("moved"):
        return []
    words = words_in(item.title) + words_in(item.summary)
    if item.is_a("views") and item.body[1] == b"0":
        words += words_in(item.body[2][0][2])
    return list(dict.fromkeys(words))[:200]


class Site:
    """All items by their selectors, with those that have expired: changes see them, clients don't."""

    def __init__(self, host, port, admin, title, now):
        self.items = {b"": Item(title, now, None, b"", ("menu", []))}
        self.host, self.port, self.admin = host, port, admin
        # so many changes were made
        self.changes = 0

    def found(self, selector, now):
        """What a client finds at a selector."""
        item = self.items.get(selector)
        return None if item is None or item.is_over(now) else item

    def posts(self, board):
        """The numbers of a board's posts that are there, newest first."""
        front = b"post/" + board + b"/"
        numbers = [it[len(front):] for it in self.items if it.startswith(front)]
        return sorted((int(it) for it in numbers if it.isdigit()), reverse=True)

    def has_posts(self, selector):
        item = self.items.get(selector)
        return item is not None and item.is_a("board") and bool(self.posts(selector))

    def put(self, selector, item, now):
        if selector == b"" and (not item.is_a("menu") or item.until is not None):
            raise Refused("Root")
        if is_reserved(selector) or item.is_a("moved"):
            raise Refused("Reserved")
        if is_bad_body(item.body):
            raise Refused("BadName")
        if len(item.summary) > 400 or is_long_body(selector, item.body):
            raise Refused("TooLong")
        old = self.items.get(selector)
        keeps = item.is_a("board") and old is not None and old.is_a("board")
        if self.has_posts(selector) and not (keeps and old.body[1] == item.body[1]):
            raise Refused("NotEmpty")
        body = item.body
        if item.is_a("board"):
            body = ("board", item.body[1], old.body[2] if keeps else 1)
        self.items[selector] = replace(item, stamp=now, body=body)
        self.changes += 1

    def remove(self, selector):
        if selector == b"":
            raise Refused("Root")
        if selector not in self.items:
            raise Refused("Missing")
        if self.has_posts(selector):
            raise Refused("NotEmpty")
        del self.items[selector]
        self.changes += 1

    def move(self, origin, target, now):
        if b"" in (origin, target):
            raise Refused("Root")
        if is_reserved(origin) or is_reserved(target):
            raise Refused("Reserved")
        if origin == target:
            raise Refused("BadName")
        item = self.items.get(origin)
        if item is None or item.is_a("moved"):
            raise Refused("Missing")
        if item.is_a("board") and len(target) > 229:
            raise Refused("TooLong")
        if self.has_posts(origin) or self.has_posts(target):
            raise Refused("NotEmpty")
        self.items[target] = item
        self.items[origin] = Item(item.title, now, None, b"", ("moved", target))
        self.changes += 1

    def set_host(self, host, port):
        self.host, self.port = host, port
        self.changes += 1

    def set_admin(self, admin):
        self.admin = admin
        self.changes += 1

    def post(self, board, title, text, now):
        """Posts to a board, and answers the selector of the post."""
        if len(text) > MOST_POST_BYTES:
            raise Refused("TooLong")
        item = self.items.get(board)
        if item is None or not item.is_a("board"):
            raise Refused("NotABoard")
        _, cap, number = item.body
        if number == 2**64 - 1:
            raise Refused("Spent")
        selector = b"post/%s/%d" % (board, number)
        self.items[selector] = Item(title, now, None, b"", ("views", b"0", [(b"Text/plain", b"", text)]))
        self.items[board] = replace(item, stamp=now, body=("board", cap, number + 1))
        self.items.pop(b"post/%s/%d" % (board, number - cap), None)
        self.changes += 1
        return selector

    def search(self, scope, query, now):
        """The selectors of the first hundred items that clients find and that have all words of the query."""
        words = words_in(query)
        if not words:
            return []
        there = [it for it in sorted(self.items) if it.startswith(scope) and self.found(it, now) is not None]
        return [it for it in there if {*words} <= {*words_of(self.items[it])}][:100]

    def pairs(self):
        """How many keys an image of the site has: a record, chunks and words of each item."""
        return sum(1 + chunks_of(item.body) + len(words_of(item)) for item in self.items.values())


def entry_bytes(entry):
    """How many bytes an entry of a menu, or a question of a form, has in an image."""
    word, parts = entry[0], entry[1:]
    if word == "remote":
        return 2 + sum(1 + len(it) for it in parts[1:4]) + 2
    if word == "choose":
        return 2 + len(parts[0]) + 1 + sum(1 + len(it) for it in parts[1])
    return 1 + sum(1 + len(it) for it in parts)


def chunks_of(body):
    """How many chunks of 1,000 bytes the parts of a body have."""
    parts = []
    if body[0] == "views":
        parts = [len(it[2]) for it in body[2]]
    elif body[0] == "menu":
        parts = [sum(entry_bytes(it) for it in body[1])]
    elif body[0] == "form":
        parts = [sum(entry_bytes(it) for it in body[2])]
    return sum((length + 999) // 1000 for length in parts)
