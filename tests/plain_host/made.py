"""Random files of changes and random scripts, by a seed."""
from . import replies
from .site import GREATEST_MOMENT, MOST_VIEW_BYTES

# the moments of most changes and requests lie within some seconds of this one
MOMENT = 743_878_921
SELECTORS = ["/about", "/a", "/a/b", "/b", "/c", "/d", "/book", "/wall", "/sign", "/find", "two words", ""]
WRONG_SELECTORS = ["URL:http://a.b/", "post/x", "post//book/1", "post//book/2", "x" * 229, "x" * 230, "x" * 255, "x" * 256, "a\tb"]
VOCABULARY = "many few hello last dot Hello one Two x9 abcdefghijklmnopqrstuvwxyz0123456789 a-b".split()
ENDS = [" ", " ", " ", "\n", "\r\n", "\n.", "\n..", "\t", "\n\n", "\r"]
ROOMS = [0, 1, 3, 7, 64, 64, 1000, 4096, 65_536, 65_536]
LINKS = ["http://a.b/", "https://a.b/?x&y=\"<1>\"", "ftp://", "gopher://h:70/", "javascript:x", "http://a b", ""]


def text(rng, most=12):
    return "".join(rng.choice(VOCABULARY) + rng.choice(ENDS) for _ in range(rng.randrange(most)))


def long_text(rng):
    length = rng.choice([MOST_VIEW_BYTES, MOST_VIEW_BYTES, MOST_VIEW_BYTES + 1])
    return (text(rng) + "0123456789\n" * (length // 11 + 1))[:length]


def title(rng):
    return rng.choice(["A", "About us", "Book", "hello there", "", "t" * 69, "t" * 69, "t" * 70 if rng.random() < 0.1 else "Many"])


def selector(rng):
    return rng.choice(WRONG_SELECTORS if rng.random() < 0.06 else SELECTORS)


def until(rng):
    """A moment of expiry near the others; now and then one at an end, or none that is one."""
    if rng.random() < 0.02:
        return rng.choice([-1, GREATEST_MOMENT + 1, "743878921", 1.5, True, [], 2**63 - 1])
    return rng.choice([0, GREATEST_MOMENT] + [MOMENT + it for it in range(-2, 9)] * 2)


def entry(rng):
    return rng.choice([
        lambda: {"local": selector(rng)},
        lambda: {"local": rng.choice(SELECTORS)},
        lambda: {"local": f"post//book/{rng.randrange(1, 5)}"},
        lambda: {"info": title(rng)},
        lambda: {"title": title(rng), "url": rng.choice(LINKS[:4])},
        lambda: {"kind": rng.choice("0127h"), "title": "Far", "selector": "/v", "host": "gopher.example", "port": 70},
    ])()


def question(rng):
    prompt = rng.choice(["Your name", "Message", "Mood", "Mood", "p" * 69])
    return rng.choice([
        lambda: {"ask": prompt},
        lambda: {"ask": prompt},
        lambda: {"askl": prompt},
        lambda: {"askp": prompt, "word": rng.choice(["xyz", "w" * 40, "w" * 41 if rng.random() < 0.1 else "xyz"])},
        lambda: {"choose": prompt, "choices": rng.choice([["good", "bad"], ["1", "0"], ["c"] * 10])},
    ])()


def views(rng):
    names = [("Text/plain", ""), ("Text/plain", "De_DE"), ("Text/html", ""), ("image/gif", "")]
    picked = rng.sample(names, rng.randrange(1, 4)) + ([names[0]] if rng.random() < 0.1 else [])
    made = []
    for name, language in picked:
        view = {"name": name, **({"language": language} if language else {})}
        part = {"hex": bytes(rng.randrange(256) for _ in range(rng.randrange(20))).hex()} if rng.random() < 0.3 else {"text": text(rng)}
        made.append({**view, **part})
    return {"kind": rng.choice("04569gIh00"), "views": made}


def body(rng):
    weights = {"text": 40, "long": 1, "menu": 22, "board": 10, "form": 12, "search": 10, "views": 10}
    word = rng.choices([*weights], [*weights.values()])[0]
    if word == "views":
        return views(rng)
    return {
        "text": lambda: {"text": text(rng, rng.choice([4, 12, 12, 300]))},
        "long": lambda: {"text": long_text(rng)},
        "menu": lambda: {"menu": [entry(rng) for _ in range(rng.choice([0, 2, 5, 9, 101 if rng.random() < 0.1 else 3]))]},
        "board": lambda: {"board": rng.choice([1, 2, 3, 3, 100, 0 if rng.random() < 0.1 else 5])},
        "form": lambda: {"form": {"board": rng.choice(["/book", "/book", "/wall", "/a"]), "questions": [question(rng) for _ in range(rng.randrange(1, 4))]}},
        "search": lambda: {"search": rng.choice(["", "", "/a", "/", "post/"])},
    }[word]()


def put(rng):
    made = body(rng)
    at = rng.choice(["/book", "/wall"]) if "board" in made and rng.random() < 0.8 else "/sign" if "form" in made and rng.random() < 0.6 else selector(rng)
    if "menu" in made and rng.random() < 0.5:
        at = ""
    table = {"do": "put", "selector": at, "title": title(rng), **made}
    if rng.random() < 0.15:
        table["abstract"] = text(rng, rng.choice([4, 4, 60]))
    if rng.random() < (0.1 if at == "" else 0.6):
        table["until"] = until(rng)
    return table


def change(rng):
    """A table of a file of changes; seldom one that has no such form."""
    table = rng.choices([
        lambda: put(rng),
        lambda: {"do": "remove", "selector": selector(rng)},
        lambda: {"do": "move", "from": selector(rng), "to": selector(rng)},
        lambda: {"do": "host", "host": rng.choice(["localhost", "gopher.example"]), "port": rng.choice([70, 7070, 7070])},
        lambda: {"do": "admin", "admin": rng.choice(["Ada <ada@localhost>", "Bob", ""])},
    ], [80, 6, 10, 1, 1])[0]()
    if rng.random() < 0.01:
        table["until" if table["do"] != "put" else "more"] = 5
    return table


def changes(rng):
    return [change(rng) for _ in range(rng.randrange(7))]


def first_changes(rng):
    """What a batch begins with: two boards with their forms, a text, a search, and a menu of it all. Each may have an end."""
    questions = [{"ask": "Your name"}, {"askl": "Message"}]
    bodies = {
        "/book": {"board": 3},
        "/wall": {"board": 1},
        "/sign": {"form": {"board": "/book", "questions": questions}},
        "/d": {"form": {"board": "/wall", "questions": questions[:1]}},
        "/about": {"text": text(rng)},
        "/find": {"search": ""},
    }
    ends = [{"until": MOMENT + rng.randrange(9)} if rng.random() < 0.4 else {} for _ in bodies]
    tables = [{"do": "put", "selector": at, "title": title(rng)[:69], **made, **end} for (at, made), end in zip(bodies.items(), ends)]
    return [*tables, {"do": "put", "selector": "", "title": "Top", "menu": [{"local": it} for it in SELECTORS[:-1]] + [{"info": "Welcome"}]}]


def near(rng, site):
    """A moment before, at or after the end of an item, or any near the others."""
    ends = [it.until for it in site.items.values() if it.until not in (None, 0, GREATEST_MOMENT)]
    if ends and rng.random() < 0.7:
        return rng.choice(ends) + rng.choice([-1, 0, 1])
    return rng.choice([0, GREATEST_MOMENT] + [MOMENT + it for it in range(-3, 10)] * 4)


def answers(rng, questions):
    """Lines of data that answer most questions."""
    lines = []
    for it in questions:
        if it[0] == "askl":
            count = rng.randrange(3)
            lines += [b"%d" % count, *(rng.choice([b"Hi", b".x", b""]) for _ in range(count))]
        elif it[0] == "askp":
            lines.append(it[2] if rng.random() < 0.8 else b"abc")
        elif it[0] == "choose":
            lines.append(rng.choice([it[2][-1], b"0", b"1", b"07", b"x"]))
        else:
            lines.append(rng.choice([b"Ann", b"Bob", b"", b"a\tb"]))
    return lines + ([b"more"] if rng.random() < 0.06 else [])


def data(lines, rng):
    body = b"".join(it + b"\r\n" for it in lines)
    head = rng.choice([b"+-1", b"+-1", b"+-2", b"+%d" % len(body), b"+-3" if rng.random() < 0.1 else b"+-1"])
    if head == b"+-1":
        body = b"".join((b"." if it.startswith(b".") else b"") + it + b"\r\n" for it in lines) + b".\r\n"
    return head + b"\r\n" + body


def request(rng, site):
    """A request of something that stands in the site, or stood there."""
    there = sorted(site.items)
    at = rng.choice(there) if rng.random() < 0.75 else selector(rng).encode()
    if rng.random() < 0.04:
        at = b"URL:" + rng.choice(LINKS).encode()
    forms = [it for it in there if site.items[it].is_a("form")]
    if forms and rng.random() < 0.25:
        at = rng.choice(forms)
        return at + b"\t+\t1\r\n" + data(answers(rng, site.items[at].body[2]), rng)
    searches = [it for it in there if site.items[it].is_a("search")]
    if searches and rng.random() < 0.2:
        return rng.choice(searches) + b"\t" + " ".join(rng.choices(VOCABULARY, k=rng.randrange(3))).encode() + rng.choice([b"", b"\t+"]) + b"\r\n"
    names = b" ".join(rng.choices([*replies.BLOCKS, b"+INFO", b"+ask"], k=rng.randrange(3)))
    form = rng.choice([
        b"", b"", b"", b"\t+", b"\t+", b"\t!", b"\t!" + names, b"\t$", b"\t$" + names, b"\t+Text/plain De_DE", b"\t+Text/plain", b"\twords", b"\twords\t+",
        b"\t\t+", b"\t+\t0", b"\t!\t1", b"\ta\tb", b"\t\t\t+", b"\0", b"\r",
    ])
    return at + form + rng.choice([b"\r\n", b"\r\n", b"\n"])
