"""What a file of changes does to a site, written once more by the document CHANGE_FILE: nothing of the program is read here.

The file is given as the tables that it writes: dicts, lists, strings, whole numbers, and whatever else TOML has."""
from .site import (
    GREATEST_MOMENT, KINDS, LINK_KINDS, Item, Refused, admin_of, host_of, port_of, prompt_of, selector_of, title_of, url_of,
)


class Form(Exception):
    """A table has not the form of a change."""


def text_at(table, key):
    if not isinstance(table.get(key), str):
        raise Form
    return table[key].encode()


def text_or_none(table, key):
    return text_at(table, key) if key in table else b""


def number_at(table, key, most=65_535):
    number = table.get(key)
    if type(number) is not int or not 0 <= number <= most:
        raise Form
    return number


def list_at(table, key):
    if not isinstance(table.get(key), list):
        raise Form
    return table[key]


def keys_are(table, *keys):
    if not isinstance(table, dict) or not {*table} <= {*keys}:
        raise Form


def letter_at(table, key, letters):
    letter = text_at(table, key)
    if len(letter) != 1 or letter not in letters:
        raise Form
    return letter


def later(make, *parts):
    """What is made of names that their types may refuse: when the change's turn comes, in their order."""
    return lambda: make(*(part() for part in parts))


def name(of, text):
    return lambda: of(text)


def known(value):
    return lambda: value


def all_of(parts):
    return lambda: [part() for part in parts]


def view_of(table):
    keys_are(table, "name", "language", "text", "hex")
    if ("text" in table) == ("hex" in table):
        raise Form
    if "text" in table:
        return text_at(table, "name"), text_or_none(table, "language"), text_at(table, "text")
    digits = text_at(table, "hex")
    if len(digits) % 2 or any(it not in b"0123456789abcdefABCDEF" for it in digits):
        raise Form
    return text_at(table, "name"), text_or_none(table, "language"), bytes.fromhex(digits.decode())


def entry_of(table):
    if not isinstance(table, dict):
        raise Form
    if "local" in table:
        keys_are(table, "local")
        return later(lambda at: ("local", at), name(selector_of, text_at(table, "local")))
    if "info" in table:
        keys_are(table, "info")
        return later(lambda title: ("info", title), name(title_of, text_at(table, "info")))
    title = name(title_of, text_at(table, "title"))
    if "url" in table:
        keys_are(table, "title", "url")
        return later(lambda *it: ("url", *it), title, name(url_of, text_at(table, "url")))
    keys_are(table, "kind", "title", "selector", "host", "port")
    kind = known(letter_at(table, "kind", LINK_KINDS))
    at, host = name(selector_of, text_at(table, "selector")), name(host_of, text_at(table, "host"))
    return later(lambda *it: ("remote", *it), kind, title, at, host, name(port_of, number_at(table, "port")))


def question_of(table):
    if not isinstance(table, dict):
        raise Form
    words = [it for it in ("ask", "askl", "askp", "choose") if it in table]
    if len(words) != 1:
        raise Form
    word = words[0]
    prompt = name(prompt_of, text_at(table, word))
    if word == "askp":
        keys_are(table, word, "word")
        return later(lambda it, rest: (word, it, rest), prompt, known(text_at(table, "word")))
    if word == "choose":
        keys_are(table, word, "choices")
        choices = [text_at({"": it}, "") for it in list_at(table, "choices")]
        return later(lambda it, rest: (word, it, rest), prompt, known(choices))
    keys_are(table, word)
    return later(lambda it: (word, it), prompt)


def form_of(table):
    keys_are(table, "board", "questions")
    board = name(selector_of, text_at(table, "board"))
    questions = [question_of(it) for it in list_at(table, "questions")]
    return later(lambda *it: ("form", *it), board, all_of(questions))


BODIES = ("text", "views", "menu", "board", "form", "search")


def body_of(table):
    """What makes the body that a table puts."""
    words = [it for it in BODIES if it in table]
    if len(words) != 1:
        raise Form
    word = words[0]
    keys_are(table, "do", "selector", "title", "abstract", "until", word, *(["kind"] if word == "views" else []))
    if word == "text":
        return known(("views", b"0", [(b"Text/plain", b"", text_at(table, "text"))]))
    if word == "views":
        return known(("views", letter_at(table, "kind", KINDS), [view_of(it) for it in list_at(table, "views")]))
    if word == "menu":
        return later(lambda entries: ("menu", entries), all_of([entry_of(it) for it in list_at(table, "menu")]))
    if word == "board":
        return known(("board", number_at(table, "board"), 1))
    if word == "form":
        return form_of(table["form"])
    return later(lambda scope: ("search", scope), name(selector_of, text_at(table, "search")))


def put_of(table):
    at, title = name(selector_of, text_at(table, "selector")), name(title_of, text_at(table, "title"))
    summary = text_or_none(table, "abstract")
    until = number_at(table, "until", GREATEST_MOMENT) if "until" in table else None
    made = later(lambda *it: it, at, title, body_of(table))

    def put(site, now):
        selector, title, body = made()
        site.put(selector, Item(title, now, until, summary, body), now)

    return put


def change_of(table):
    """What a table changes, as a function of the site and the moment."""
    if not isinstance(table, dict):
        raise Form
    word = text_at(table, "do")
    if word == b"put":
        return put_of(table)
    if word == b"remove":
        keys_are(table, "do", "selector")
        made = later(lambda *it: it, name(selector_of, text_at(table, "selector")))
        return lambda site, now: site.remove(*made())
    if word == b"move":
        keys_are(table, "do", "from", "to")
        made = later(lambda *it: it, name(selector_of, text_at(table, "from")), name(selector_of, text_at(table, "to")))
        return lambda site, now: site.move(*made(), now)
    if word == b"host":
        keys_are(table, "do", "host", "port")
        made = later(lambda *it: it, name(host_of, text_at(table, "host")), name(port_of, number_at(table, "port")))
        return lambda site, now: site.set_host(*made())
    if word == b"admin":
        keys_are(table, "do", "admin")
        made = later(lambda *it: it, name(admin_of, text_at(table, "admin")))
        return lambda site, now: site.set_admin(*made())
    raise Form


def applied(site, tables, now):
    """The status, the line on standard output and that on standard error of `apply` of such tables."""
    changes = []
    for number, table in enumerate(tables, 1):
        try:
            changes.append(change_of(table))
        except Form:
            return 1, "", f"file: change {number}"
    for number, change in enumerate(changes, 1):
        try:
            change(site, now)
        except Refused as refused:
            return 1, "", f"change {number}: {refused.name}"
    return 0, f"applied {len(changes)}", ""
