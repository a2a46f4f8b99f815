"""What a site answers to a request at a moment, written once more by the document PROTOCOL: nothing of the program is read here."""
from datetime import datetime, timezone

from .requests import lines_of
from .site import Refused, url_of

BLOCKS = (b"+ADMIN", b"+VIEWS", b"+ABSTRACT", b"+ASK")
TEXTS = b"046"


class NoReply(Exception):
    """The reply is an error: its text, and for an item that moved the line of the new one."""


def text_of(lines):
    return b"".join((b"." if it.startswith(b".") else b"") + it + b"\r\n" for it in lines) + b".\r\n"


def plain_error(text):
    return b"3%s\t\terror.host\t1\r\n.\r\n" % text.encode()


def letter_of(item):
    if item.is_a("views"):
        return item.body[1]
    return b"7" if item.is_a("search") else b"1"


def line_of(site, selector, item):
    """The menu line of an item of the site, without its end."""
    sign = b"?" if item.is_a("form") else b"+"
    return b"%s%s\t%s\t%s\t%d\t%s" % (letter_of(item), item.title, selector, site.host, site.port, sign)


def local(site, selector, now):
    """What an entry finds at a selector, unless it has moved."""
    item = site.found(selector, now)
    return None if item is None or item.is_a("moved") else item


def link_line(site, entry):
    """The menu line of an entry that is no item of the site."""
    if entry[0] == "info":
        return b"i%s\t\t%s\t%d" % (entry[1], site.host, site.port)
    if entry[0] == "url":
        return b"h%s\tURL:%s\t%s\t%d" % (entry[1], entry[2], site.host, site.port)
    return b"%s%s\t%s\t%s\t%d" % entry[1:]


def entries_of(site, selector, item):
    """The entries of a menu, or those of the posts of a board."""
    if item.is_a("menu"):
        return item.body[1]
    return [("local", b"post/%s/%d" % (selector, number)) for number in site.posts(selector)]


def menu_lines(site, entries, now):
    lines = []
    for entry in entries:
        if entry[0] != "local":
            lines.append(link_line(site, entry))
        elif (item := local(site, entry[1], now)) is not None:
            lines.append(line_of(site, entry[1], item))
    return lines


def menu_of(lines):
    return b"".join(it + b"\r\n" for it in lines) + b".\r\n"


def date_of(stamp):
    it = datetime.fromtimestamp(stamp, timezone.utc)
    day = "Mon Tue Wed Thu Fri Sat Sun".split()[it.weekday()]
    month = "Jan Feb Mar Apr May Jun Jul Aug Sep Oct Nov Dec".split()[it.month - 1]
    clock = f"{it.hour:02}:{it.minute:02}:{it.second:02}"
    digits = f"{it.year:04}{it.month:02}{it.day:02}{it.hour:02}{it.minute:02}{it.second:02}"
    return f"{day} {month} {it.day:02} {clock} {it.year:04} <{digits}>".encode()


def question_line(question):
    sign = {"ask": b"Ask", "askl": b"AskL", "askp": b"AskP", "choose": b"Choose"}[question[0]]
    choices = question[2] if question[0] == "choose" else []
    return b"\t".join([b" %s: %s" % (sign, question[1]), *choices])


def view_line(view):
    name, language, text = view
    return b" %s%s: <%dk>" % (name, b" " + language if language else b"", (len(text) + 1023) // 1024)


def blocks_of(site, selector, item, names):
    """The lines of the blocks of an item that are asked for."""
    lines = [b"+INFO: " + line_of(site, selector, item)]
    wanted = {*(names or BLOCKS)}
    if b"+ADMIN" in wanted:
        lines += [b"+ADMIN:", b" Admin: " + site.admin, b" Mod-Date: " + date_of(item.stamp)]
    if b"+VIEWS" in wanted and item.is_a("views"):
        lines += [b"+VIEWS:", *map(view_line, item.body[2])]
    if b"+ABSTRACT" in wanted and item.summary:
        lines += [b"+ABSTRACT:", *(b" " + it for it in lines_of(item.summary))]
    if b"+ASK" in wanted and item.is_a("form"):
        lines += [b"+ASK:", *map(question_line, item.body[2])]
    return lines


def all_blocks(site, entries, names, now):
    lines = []
    for entry in entries:
        if entry[0] != "local":
            lines.append(b"+INFO: " + link_line(site, entry))
        elif (item := local(site, entry[1], now)) is not None:
            lines += blocks_of(site, entry[1], item, names)
    return lines


def answer_of(question, lines):
    """The lines that answer a question, taken from the front of some lines."""
    if not lines:
        raise NoReply("Answers do not fit the form")
    first = lines.pop(0)
    if question[0] == "askl":
        count = int(first) if 1 <= len(first) <= 5 and first.isdigit() else None
        if count is None or count > len(lines):
            raise NoReply("Answers do not fit the form")
        taken, lines[:] = lines[:count], lines[count:]
        return taken
    if question[0] == "choose" and first not in question[2]:
        place = int(first) if 1 <= len(first) <= 2 and first.isdigit() else len(question[2])
        if place >= len(question[2]):
            raise NoReply("Answers do not fit the form")
        return [question[2][place]]
    return [first]


def post_of(questions, lines):
    """The title and the text of the post that some lines of data make."""
    left = list(lines)
    answers = [(it, answer_of(it, left)) for it in questions]
    if left:
        raise NoReply("Answers do not fit the form")
    if any(it[0] == "askp" and answer != [it[2]] for it, answer in answers):
        raise NoReply("Wrong word")
    told = [(it, answer) for it, answer in answers if it[0] != "askp"]
    text = b""
    for it, answer in told:
        text += it[1] + b":\n" + b"".join(line + b"\n" for line in answer) if it[0] == "askl" else it[1] + b": " + answer[0] + b"\n"
    first = (told[0][1] or [b""])[0] if told else b""
    return first.translate(bytes.maketrans(b"\t\r\0", b"   "))[:69] or b"Untitled", text


def posted(site, item, lines, now):
    """The reply to a right post, which is stored then."""
    _, board, questions = item.body
    title, text = post_of(questions, lines)
    if site.found(board, now) is None:
        raise NoReply("Board not found")
    try:
        selector = site.post(board, title, text, now)
    except Refused as refused:
        raise NoReply({"NotABoard": "Board not found", "Spent": "Board is full"}[refused.name]) from refused
    return menu_of([line_of(site, selector, site.items[selector])])


def sent_view(item, view):
    """The view of a document that is asked for, as a text or as its bytes."""
    _, kind, views = item.body
    fit = views if view is None else [it for it in views if it[0] == view[0] and view[1] in (None, it[1])]
    if not fit:
        raise NoReply("View not found")
    if kind in TEXTS:
        return True, text_of(lines_of(fit[0][2]))
    return False, fit[0][2]


def page_of(link):
    try:
        url = url_of(link)
    except Refused as refused:
        raise NoReply("URL not allowed") from refused
    for sign, name in ((b"&", b"&amp;"), (b"<", b"&lt;"), (b">", b"&gt;"), (b'"', b"&quot;")):
        url = url.replace(sign, name)
    head = b'<html><head><meta http-equiv="refresh" content="0;url=%s"></head>' % url
    return head + b'<body><a href="%s">%s</a></body></html>\n' % (url, url)


def found_item(site, selector, now):
    item = site.found(selector, now)
    if item is None:
        raise NoReply("Item not found")
    if item.is_a("moved"):
        target = local(site, item.body[1], now)
        if target is None:
            raise NoReply("Item not found")
        raise NoReply("Item has moved", line_of(site, item.body[1], target))
    return item


def body_of(site, request, now):
    """Whether the reply ends with a period, and its bytes without the head of Gopher+."""
    if request.selector.startswith(b"URL:"):
        if request.plus in (b"!", b"$"):
            raise NoReply("Item not found")
        return False, page_of(request.selector[4:])
    item = found_item(site, request.selector, now)
    is_list = item.is_a("menu") or item.is_a("board")
    if request.plus == b"!":
        return True, menu_of(blocks_of(site, request.selector, item, request.names))
    if request.plus == b"$":
        if not is_list:
            raise NoReply("Not a menu")
        return True, menu_of(all_blocks(site, entries_of(site, request.selector, item), request.names, now))
    if item.is_a("form"):
        if request.lines is None:
            raise NoReply("Form needs answers")
        return True, posted(site, item, request.lines, now)
    if item.is_a("views"):
        return sent_view(item, request.view)
    if is_list:
        return True, menu_of(menu_lines(site, entries_of(site, request.selector, item), now))
    found = site.search(item.body[1], request.words or b"", now)
    return True, menu_of(menu_lines(site, [("local", it) for it in found], now))


def reply_of(site, request, now):
    """The whole reply to a request; a right post is stored."""
    try:
        has_period, body = body_of(site, request, now)
    except NoReply as error:
        text, *line = error.args
        if request.plus is None:
            return plain_error(text)
        return b"--1\r\n%d %s\r\n" % (3 if line else 1, text.encode()) + menu_of(line)
    if request.plus is None:
        return body
    return (b"+-1\r\n" if has_period else b"+%d\r\n" % len(body)) + body
