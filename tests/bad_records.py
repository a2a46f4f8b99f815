"""Pairs that are no site's, and some that are just one's, as tests/damaged writes them into images.

Each is what it shows, the pairs, and whether they are a site's. What a site is stands in the documents SITE and IMAGE."""
from dataclasses import replace

from plain_host.records import NEVER, chunk_key, pairs_of, pairs_of_item, record_of
from plain_host.site import GREATEST_MOMENT, KINDS, LINK_KINDS, MOST_VIEW_BYTES, Item

MOMENT = 743878921
PLAIN = [(b"Text/plain", b"", b"Hello")]
ASK = [("ask", b"Name")]
LINK = ("remote", b"0", b"Far", b"/v", b"gopher.example", 70)
LONG_AT = b"/" + b"s" * 228


def item(*body, title=b"Item", stamp=MOMENT, until=None, summary=b""):
    return Item(title, stamp, until, summary, body)


def views(*all_views, kind=b"0"):
    return item("views", kind, list(all_views))


def menu(*entries):
    return item("menu", list(entries))


def form(*questions, board=b"/book"):
    return item("form", board, list(questions))


def named(name=b"Text/plain", language=b""):
    return name, language, b"hi"


# what can't stand at the selector /x
BAD_ITEMS = {
    "a document of kind 1": views(*PLAIN, kind=b"1"),
    "a document without views": views(kind=b"9"),
    "nine views": views(*(named(b"v%d" % it) for it in range(9))),
    "a view without a name": views(named(b"")),
    "a view's name with a space": views(named(b"Text plain")),
    "a view's name of 41 bytes": views(named(b"v" * 41)),
    "a view's language of 11 bytes": views(named(language=b"l" * 11)),
    "a view's language with a TAB": views(named(language=b"a\tb")),
    "two equal views": views(named(), named()),
    "views of too many bytes": views((b"a", b"", b"x" * MOST_VIEW_BYTES), (b"b", b"", b"y")),
    "101 entries": menu(*[("info", b"x")] * 101),
    "an entry at a selector with a TAB": menu(("local", b"/a\tb")),
    "a line of 70 bytes": menu(("info", b"t" * 70)),
    "a line with a CR": menu(("info", b"a\rb")),
    "a link that is no link": menu(("url", b"Web", b"javascript:x")),
    "a link of 252 bytes": menu(("url", b"Web", b"http://" + b"a" * 245)),
    "a link of kind 3": menu((LINK[0], b"3", *LINK[2:])),
    "a link without a host": menu((*LINK[:4], b"", 70)),
    "a link to a host of 101 bytes": menu((*LINK[:4], b"h" * 101, 70)),
    "a link to port 0": menu((*LINK[:5], 0)),
    "a board that keeps none": item("board", 0, 1),
    "a board that keeps 101": item("board", 101, 1),
    "a board whose next post is 0": item("board", 1, 0),
    "a form without questions": form(),
    "17 questions": form(*ASK * 17),
    "an empty prompt": form(("ask", b"")),
    "a prompt of 70 bytes": form(("askl", b"p" * 70)),
    "an empty word": form(("askp", b"Word", b"")),
    "a word of 41 bytes": form(("askp", b"Word", b"w" * 41)),
    "a word with a NUL": form(("askp", b"Word", b"a\0b")),
    "no choices": form(("choose", b"Mood", [])),
    "11 choices": form(("choose", b"Mood", [b"c"] * 11)),
    "an empty choice": form(("choose", b"Mood", [b"good", b""])),
    "a choice of 41 bytes": form(("choose", b"Mood", [b"c" * 41])),
    "a form of a board with an LF": form(*ASK, board=b"/a\nb"),
    "a search under a selector with a NUL": item("search", b"/a\0"),
    "a moved item's target with a CR": item("moved", b"/a\r"),
    "a title of 70 bytes": replace(views(*PLAIN), title=b"t" * 70),
    "a title with a TAB": replace(views(*PLAIN), title=b"a\tb"),
    "a summary of 401 bytes": replace(views(*PLAIN), summary=b"s" * 401),
    "a stamp past the year 9999": replace(views(*PLAIN), stamp=GREATEST_MOMENT + 1),
    "an expiry past the year 9999": replace(views(*PLAIN), until=GREATEST_MOMENT + 1),
    "an expiry just below none": replace(views(*PLAIN), until=NEVER - 1),
}

GOOD_ITEMS = {
    **{f"kind {chr(it)}": views(*PLAIN, kind=bytes([it])) for it in KINDS},
    "eight views": views(*(named(b"v%d" % it) for it in range(8))),
    "the longest names of a view": views(named(b"v" * 40, b"l" * 10), named(b"v" * 40)),
    "a view of no bytes": views((b"Text/plain", b"", b"")),
    "views of as many bytes as there may be": views((b"a", b"", b"x" * (MOST_VIEW_BYTES - 1)), (b"b", b"", b"y")),
    "more than 200 words": views((b"Text/plain", b"", b" ".join(b"w%d" % it for it in range(250)))),
    "100 entries": menu(*[("info", b"x")] * 100),
    "links of each kind": menu(*((LINK[0], bytes([it]), *LINK[2:]) for it in LINK_KINDS)),
    "the longest link": menu(("url", b"t" * 69, b"http://" + b"a" * 244), ("url", b"", b"ftp://")),
    "an entry of no item": menu(("local", b"/none"), ("local", b"URL:x"), ("local", b"s" * 255)),
    "a board that keeps 100": item("board", 100, 2**64 - 1),
    "16 questions": form(*ASK * 16),
    "the longest words": form(("askp", b"p" * 69, b"w" * 40), ("choose", b"p", [b"c" * 40] * 10)),
    "a form without its board": form(*ASK, board=b"/none"),
    "a search under anything": item("search", b"post/"),
    "an item that moved nowhere": item("moved", b"/none", until=1),
    "the longest title and summary": replace(views(*PLAIN), title=b"t" * 69, summary=bytes(400)),
    "the last moments": replace(views(*PLAIN), stamp=GREATEST_MOMENT, until=GREATEST_MOMENT),
    "the first moments": replace(views(*PLAIN), stamp=0, until=0),
}


def with_item(site, selector, it, version=2):
    """A site's pairs, with another item at a selector."""
    pairs = pairs_of(site, version)
    for key in pairs_of_item(selector, site.items[selector], version) if selector in site.items else ():
        del pairs[key]
    return pairs | pairs_of_item(selector, it, version)


def items():
    """Items that no site has, or just some site, and which of both."""
    return [*((what, it, False) for what, it in BAD_ITEMS.items()), *((what, it, True) for what, it in GOOD_ITEMS.items())]


def item_rows(site):
    for what, it, is_right in items():
        yield what, with_item(site, b"/x", it), is_right


def place_rows(site):
    """Items that stand where they may not, or just may: the site has the board /book, which keeps 3, and of its posts those numbered 2 to 4."""
    post = site.items[b"post//book/4"]
    for selector in (b"post//book/1", b"post//book/5", b"post//book/04", b"post//book/", b"post//book/+4", b"post//about/1", b"post//none/1", b"post/", b"post/4", b"post"):
        yield f"a post at {selector.decode()}", with_item(site, selector, post), selector == b"post"
    for what, it in (("of kind h", views(*PLAIN, kind=b"h")), ("in HTML", views(named(b"Text/html"))), ("in German", views(named(language=b"De_DE"))), ("of two views", views(*PLAIN, named(b"Text/html")))):
        yield f"a post {what}", with_item(site, b"post//book/4", it), False
    yield "a post that is a menu", with_item(site, b"post//book/4", menu()), False
    yield "a post that expires", with_item(site, b"post//book/4", replace(post, until=5)), True
    for what, cap, following, is_right in (("keeps fewer", 2, 5, False), ("keeps more", 4, 5, True), ("counts less", 3, 4, False), ("counts more", 3, 6, False)):
        yield f"a board that {what}", with_item(site, b"/book", item("board", cap, following)), is_right
    yield "posts of no board", with_item(site, b"/book", views(*PLAIN)), False
    board = item("board", 1, 1)
    yield "a board's selector of 229 bytes", with_item(site, LONG_AT, board), True
    yield "a board's selector of 230 bytes", with_item(site, LONG_AT + b"s", board), False
    yield "a selector of 255 bytes", with_item(site, b"s" * 255, menu()), True
    yield "a selector of a link", with_item(site, b"URL:http://a.b/", menu()), False
    for byte in b"\t\r\n\0":
        yield f"a selector with the byte {byte}", with_item(site, b"/a%c" % byte, menu()), False
    for what, it in (("a document", views(*PLAIN)), ("a board", board), ("a moved item", item("moved", b"/x"))):
        yield f"{what} in the place of the top menu", with_item(site, b"", it), False
    yield "a top menu that expires", with_item(site, b"", replace(menu(), until=5)), True
    rest = pairs_of(site)
    for key in pairs_of_item(b"", site.items[b""]):
        del rest[key]
    yield "no top menu", rest, False


def byte_rows(site):
    """Records whose bytes are not those of an item; all is as the document /long has it else, whose text has 2,500 bytes."""
    pairs, it = pairs_of(site), site.items[b"/long"]
    record = record_of(it)
    wrong = {
        "an empty record": b"",
        "another letter": b"X" + record[1:],
        "a small letter": b"v" + record[1:],
        "a letter alone": record[:1],
        "a record without its last byte": record[:-1],
        "a byte behind the record": record + b"\0",
        "a title longer than the record": record[:17] + b"\x45" + record[18:],
        "a summary longer than the record": record_of(replace(it, summary=b""))[: 18 + len(it.title)] + b"\1\x90" + record[20 + len(it.title) :],
        "a text a byte longer": record[:-4] + (2501).to_bytes(4, "big"),
        "a text a byte shorter": record[:-4] + (2499).to_bytes(4, "big"),
        "a text of no bytes": record[:-4] + bytes(4),
        "a text of 4 GiB": record[:-4] + b"\xff" * 4,
        "a record of version 1": record_of(it, 1),
        "a menu of one byte": record_of(replace(menu(), title=it.title))[:-1] + b"\1",
        "a menu of too many bytes": record_of(replace(menu(), title=it.title))[:-4] + (43_101).to_bytes(4, "big"),
        "questions of two bytes": record_of(replace(form(*ASK), title=it.title))[:-1] + b"\2",
        "questions of too many bytes": record_of(replace(form(*ASK), title=it.title))[:-4] + (7713).to_bytes(4, "big"),
    }
    for what, made in wrong.items():
        yield what, pairs | {b"I/long": made}, False
    yield "255 views", pairs | {b"I/long": record[: 20 + len(it.title)] + b"0\xff" + record[22 + len(it.title) :]}, False


def part_rows(site):
    """Chunks and words that are not the item's: of the document /long, of the menu at the top and of the form /sign."""
    pairs = pairs_of(site)
    first, second, third = (chunk_key(b"/long", 0, it) for it in range(3))
    top, sign, word = chunk_key(b"", 0, 0), chunk_key(b"/sign", 0, 0), b"W\4long/long"
    without = {"the first chunk": first, "the last chunk": third, "a menu's entries": top, "a form's questions": sign, "a word": word, "a record": b"I/long"}
    for what, key in without.items():
        yield f"without {what}", {one: value for one, value in pairs.items() if one != key}, False
    more = {
        "a further chunk": {chunk_key(b"/long", 0, 3): b"x"},
        "a chunk of a further part": {chunk_key(b"/long", 1, 0): b"x"},
        "a chunk of no bytes": {chunk_key(b"/long", 0, 3): b""},
        "a chunk of a board": {chunk_key(b"/book", 0, 0): b"x"},
        "a chunk of no item": {chunk_key(b"/none", 0, 0): b"x"},
        "a chunk whose length goes past its key": {b"C\xff/long\0\0\0": b"x"},
        "a further word": {b"W\3xyz/long": b""},
        "a word of no item": {b"W\4long/none": b""},
        "a word in capitals": {b"W\4LONG/long": b""},
        "a word with a value": {word: b"x"},
        "a pair of no sort": {b"X/long": b""},
        "the first of all keys": {b"\0": b""},
        "a key of 300 bytes": {b"I" + b"s" * 299: b""},
        "a chunk moved by a byte": {first: pairs[first] + pairs[second][:1], second: pairs[second][1:]},
        "a first chunk that is short": {first: pairs[first][:-1]},
        "a last chunk that is long": {third: pairs[third] + b"x"},
        "other bytes of the text": {third: b"zzz" + pairs[third][3:]},
        "an entry of another letter": {top: b"X" + pairs[top][1:]},
        "an entry longer than the menu": {top: b"L\xff" + pairs[top][2:]},
        "a question of another letter": {sign: b"X" + pairs[sign][1:]},
        "a question longer than the form": {sign: b"A\x45" + pairs[sign][2:]},
    }
    for what, changed in more.items():
        yield what, pairs | changed, False
    yield "other bytes of the text, of the same words", pairs | {third: pairs[third].replace(b" ", b"-")}, True


def rows(site):
    for made in (item_rows, place_rows, byte_rows, part_rows):
        yield from made(site)
