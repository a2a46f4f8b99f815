"""Images for measurements: a site by the program's own commands, and an image that is written here, full to a given share, as docs/IMAGE.md says."""
import functools
import json
import random
import re
import subprocess
import time

PAGE = 4096
CHUNK = 1000
BODY = 65536
ROOT_PART = 488
FIRST_GENERATION = 1
# the version of images, and the one before it, in whose records no item has an end
VERSION, FIRST_VERSION = 2, 1
NEVER = b"\xff" * 8
RARE, RARE_AT = "lighthouse", 7
HOST, ADMIN, TITLE = "localhost", "Ada <ada@localhost>", "Top"


def run(program, *words):
    """What a command of the host prints. It has to end well."""
    ran = subprocess.run([program, *words], stdout=subprocess.PIPE, stderr=subprocess.PIPE, stdin=subprocess.DEVNULL, text=True, timeout=120)
    if ran.returncode:
        raise SystemExit(f"bench: '{' '.join(words)}' ended with {ran.returncode}: {ran.stderr}")
    return ran.stdout


def lines(count, width):
    """A text of so many lines, each so many bytes wide with its LF."""
    return "".join(f"{number:04} ".ljust(width - 1, "x") + "\n" for number in range(count))


TEXTS = {"/1k": lines(16, 64), "/64k": lines(1024, 64)}
MENU = [(f"/t/{number:02}", f"A text of a menu, number {number:02}") for number in range(100)]


def put(selector, title, body):
    return f'[[change]]\ndo = "put"\nselector = {json.dumps(selector)}\ntitle = {json.dumps(title)}\n{body}\n'


def guest_book():
    """A board of 100 posts and its form."""
    return put("/book", "Book", "board = 100") + put("/sign", "Sign", 'form = {board = "/book", questions = [{ask = "Name"}]}')


def long_form():
    """A second form of the board, which asks for a text too."""
    return put("/tell", "Tell", 'form = {board = "/book", questions = [{ask = "Name"}, {ask = "Text"}]}')


def search():
    """A search of all items."""
    return put("/find", "Find", 'search = ""')


def short_text():
    return put("/1k", "1k", f"text = {json.dumps(TEXTS['/1k'])}")


def read_site():
    """The texts and the menu that are asked for."""
    texts = [put(selector, selector[1:], f"text = {json.dumps(text)}") for selector, text in TEXTS.items()]
    entries = [put(selector, title, f'text = "{title}"') for selector, title in MENU]
    menu = ", ".join("{local = " + json.dumps(selector) + "}" for selector, _ in MENU)
    return "".join(texts + entries) + put("/menu", "A menu", f"menu = [{menu}]")


def made(program, image, pages, port):
    """A new image with an empty top menu."""
    words = ["--host", HOST, "--port", str(port), "--admin", ADMIN, "--title", TITLE, "--now", str(int(time.time()))]
    run(program, "format", image, "--pages", str(pages), *words)


def applied(program, image, changes):
    file = f"{image}.toml"
    with open(file, "w", encoding="utf-8") as it:
        it.write(changes)
    run(program, "apply", image, file, "--now", str(int(time.time())))


# ---- an image that is written whole


def number(value, size):
    return value.to_bytes(size, "big")


def short(text):
    return number(len(text), 1) + text


@functools.lru_cache
def words_of(text):
    return list(dict.fromkeys(word.lower()[:32] for word in re.findall(rb"[0-9A-Za-z]+", text)))


def index_words(title, body):
    """The first 200 different words of an item, as its index has them."""
    return list(dict.fromkeys(words_of(title) + words_of(body)))[:200]


def record(letter, title, rest):
    return letter + number(int(time.time()), 8) + NEVER + short(title) + number(0, 2) + rest


def document_pairs(selector, title, body):
    view = short(b"Text/plain") + short(b"") + number(len(body), 4)
    yield b"I" + selector, record(b"V", title, b"0" + number(1, 1) + view)
    for place in range(0, len(body), CHUNK):
        yield b"C" + short(selector) + number(0, 1) + number(place // CHUNK, 2), body[place : place + CHUNK]
    for word in index_words(title, body):
        yield b"W" + short(word) + selector, b""


def prose(seed):
    """Lines of random words, together at most as many bytes as a document has."""
    source, vocabulary = random.Random(seed), [f"word{place}".encode() for place in range(2000)]
    made = (b" ".join(source.choices(vocabulary, k=8)) for _ in range(BODY // 48))
    return b"\n".join(made)[:BODY]


def cost(pairs):
    return sum(4 + len(key) + len(value) for key, value in pairs)


def content(room):
    """The pairs of an empty top menu and of as many documents as fit into so many bytes, and the count of documents."""
    bodies = [prose(seed) for seed in range(8)]
    pairs = [(b"I", record(b"M", TITLE.encode(), number(0, 4))), (b"W" + short(TITLE.lower().encode()), b"")]
    documents = 0
    while room > 2 * CHUNK:
        body = bodies[documents % len(bodies)][: room // 2]
        more = list(document_pairs(f"/d/{documents:05}".encode(), f"Document {documents}".encode(), body))
        room -= cost(more)
        pairs += more
        documents += 1
    return sorted(pairs), documents


def page(place, level, entries):
    """A page of the tree: what stands before its entries, the entries, and zeros."""
    front = b"GOPHPAGE" + number(place, 4) + number(FIRST_GENERATION, 8) + number(level, 2) + number(len(entries), 2)
    return (front + b"".join(entries)).ljust(PAGE, b"\0")


def grouped(entries):
    """Runs of entries, the next of which is begun where an entry doesn't fit. Of each its first key, and its entries as bytes."""
    groups, left = [], 0
    for key, entry in entries:
        if len(entry) > left:
            groups.append((key, []))
            left = PAGE - 24
        groups[-1][1].append(entry)
        left -= len(entry)
    return groups


def child(key, place):
    return number(len(key), 2) + number(place, 4) + key


def tree_pages(pairs):
    """The pages of a tree in filled pages, from page 2 on, and how many levels it has."""
    groups, pages, level = grouped((key, number(len(key), 2) + number(len(value), 2) + key + value) for key, value in pairs), [], 0
    while True:
        first = 2 + len(pages)
        pages += [page(first + at, level, entries) for at, (_, entries) in enumerate(groups)]
        level += 1
        if len(groups) == 1:
            return pages, level
        # the first entry of a branch has the empty key; no room is gained by it here
        runs = grouped((key, child(key, first + at)) for at, (key, _) in enumerate(groups))
        starts = [sum(len(entries) for _, entries in runs[:at]) for at in range(len(runs))]
        groups = [(key, [child(b"", first + start), *entries[1:]]) for start, (key, entries) in zip(starts, runs)]


def lowered(key, value):
    """What stands at a key in version 1: a record without the eight bytes that say from when on its item isn't found."""
    return value[:9] + value[17:] if key.startswith(b"I") else value


def root_page(pages, tree, height, pairs, port, version):
    banner = short(HOST.encode()) + number(port, 2) + short(ADMIN.encode())
    kept = (number(version, 2) + number(pages, 4) + number(tree, 4) + number(height, 2) + number(pairs, 8) + banner).ljust(8 * ROOT_PART, b"\0")
    parts = (kept[place : place + ROOT_PART] for place in range(0, len(kept), ROOT_PART))
    return b"".join(b"GOPHROOT" + number(place, 8) + number(FIRST_GENERATION, 8) + part for place, part in enumerate(parts))


def put_image(image, pages, port, pairs, version=VERSION):
    """Writes an image of a tree with these pairs. Returns how many pages and levels the tree has."""
    if version == FIRST_VERSION:
        pairs = [(key, lowered(key, value)) for key, value in pairs]
    tree, height = tree_pages(pairs)
    if len(tree) > pages - 2:
        raise SystemExit(f"bench: {len(tree)} pages of a tree do not fit into {pages} pages")
    with open(image, "wb") as it:
        it.write(root_page(pages, 1 + len(tree), height, len(pairs), port, version) + bytes(PAGE) + b"".join(tree))
        it.truncate(pages * PAGE)
    return len(tree), height


def written(image, pages, port, bytes_of_pairs):
    """Writes an image whose tree has about so many bytes of pairs. Returns the count of its documents."""
    pairs, documents = content(bytes_of_pairs)
    put_image(image, pages, port, pairs)
    return documents


def written_items(image, pages, port, items, version=VERSION):
    """Writes an image with so many short documents, of which one alone has the rare word, under an empty top menu. Returns how many pages and levels its tree has."""
    source, vocabulary = random.Random(items), [f"word{place}".encode() for place in range(2000)]
    pairs = [(b"I", record(b"M", TITLE.encode(), number(0, 4))), (b"W" + short(TITLE.lower().encode()), b"")]
    for place in range(items):
        body = b" ".join(source.choices(vocabulary, k=20) + [RARE.encode()] * (place == RARE_AT))
        pairs += document_pairs(f"/d/{place:05}".encode(), f"Document {place}".encode(), body)
    return put_image(image, pages, port, sorted(pairs), version)
