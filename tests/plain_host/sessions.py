"""Sessions of a script over a site, written once more by the document SCRIPT: nothing of the program is read here."""
import copy
import re

from .replies import plain_error, reply_of
from .requests import Bad, request_of
from .site import GREATEST_MOMENT, Item, Refused, selector_of, title_of

MOST_SESSIONS = 32
MOST_WAITING = 16
ESCAPE = re.compile(rb"\\(?:x([0-9a-fA-F]{2})|([0nrt\\]))")
LETTERS = {b"0": b"\0", b"n": b"\n", b"r": b"\r", b"t": b"\t", b"\\": b"\\"}
SIGNS = {0: "\\0", 10: "\\n", 13: "\\r", 9: "\\t", 92: "\\\\"}


def unescaped(field):
    return ESCAPE.sub(lambda it: bytes.fromhex(it[1].decode()) if it[1] else LETTERS[it[2]], field.encode())


# a letter past ASCII, as UTF-8 writes it
WIDE = re.compile(
    rb"[\xC2-\xDF][\x80-\xBF]|\xE0[\xA0-\xBF][\x80-\xBF]|[\xE1-\xEC\xEE\xEF][\x80-\xBF]{2}|\xED[\x80-\x9F][\x80-\xBF]"
    rb"|\xF0[\x90-\xBF][\x80-\xBF]{2}|[\xF1-\xF3][\x80-\xBF]{3}|\xF4[\x80-\x8F][\x80-\xBF]{2}"
)


def escaped(text):
    """ASCII that prints stands for itself, and so does a letter past ASCII; all else stands for its escape, byte by byte."""
    shown, at = [], 0
    while at < len(text):
        wide = WIDE.match(text, at)
        if wide:
            shown.append(wide[0].decode())
            at = wide.end()
        else:
            byte = text[at]
            shown.append(SIGNS.get(byte) or (chr(byte) if 33 <= byte <= 126 else f"\\x{byte:02X}"))
            at += 1
    return "".join(shown)


class Session:
    def __init__(self):
        self.heard = b""
        # what is left of the reply, or none before there is one
        self.reply = None
        self.has_ended = False
        # the request of a post that waits, and its moment
        self.waits = None


class Sessions:
    """Sessions over one site, at the moment that the last line `now` said; posts wait for one another, or don't."""

    def __init__(self, site, grouped=False):
        self.site, self.now, self.all, self.last, self.grouped = site, 0, {}, 0, grouped
        # those whose posts wait, in the order in which they came to wait
        self.waiting = []
        # how many more steps were made at most, if the posts of each flush were made one by one
        self.spare = 0

    def stores(self, request):
        """Whether the request has a right post."""
        trial = copy.copy(self.site)
        trial.items = dict(self.site.items)
        reply_of(trial, request, self.now)
        return trial.changes != self.site.changes

    def heard(self, it, piece, ended):
        """What a session is answered to a piece, or to the end of input."""
        if it.waits:
            return "waiting"
        if it.reply is None and not it.has_ended:
            before = it.heard
            it.heard += piece
            try:
                request = request_of(it.heard, ended)
                if request is not None and self.grouped and self.stores(request):
                    return self.comes_to_wait(it, request, before)
                it.reply = None if request is None else reply_of(self.site, request, self.now)
            except Bad as bad:
                it.reply = plain_error(bad.args[0])
            it.has_ended = ended and it.reply is None
        return "ready" if it.reply is not None else "finished" if it.has_ended else "more"

    def comes_to_wait(self, it, request, before):
        """A post comes to wait behind all others; where too many do, all is as before."""
        if len(self.waiting) == MOST_WAITING:
            it.heard = before
            return "fault Crowded"
        it.waits = (request, self.now)
        self.waiting.append(it)
        return "waiting"

    def flush(self, left=()):
        """The posts that wait are made in one step, each at its own moment; those without a form any more are answered first. Where there is too little room for all, some are left, and go on waiting."""
        before = self.site.changes
        made = [it for it in self.waiting if it not in left]
        formless = [it for it in made if not self.finds_form(*it.waits)]
        for it in [*formless, *(it for it in made if it not in formless)]:
            request, now = it.waits
            it.reply, it.waits = reply_of(self.site, request, now), None
        self.waiting = [it for it in self.waiting if it in left]
        # as many steps may be made as posts where they are made one by one
        self.spare += max(0, self.site.changes - before - 1)
        self.site.changes = min(self.site.changes, before + 1)
        return f"flushed {len(made)} left {len(self.waiting)}"

    def finds_form(self, request, now):
        item = self.site.found(request.selector, now)
        return item is not None and item.is_a("form")

    def drawn(self, it, room):
        if it.has_ended or it.reply == b"":
            return "finished"
        if it.reply is None:
            return "fault NotReady"
        piece, it.reply = it.reply[:room], it.reply[room:]
        return "drawn " + escaped(piece)

    def put_text(self, selector, title, body):
        view = (b"Text/plain", b"", unescaped(body))
        try:
            selector = selector_of(unescaped(selector))
            item = Item(title_of(unescaped(title)), self.now, None, b"", ("views", b"0", [view]))
            self.site.put(selector, item, self.now)
        except Refused as refused:
            return f"fault {refused.name}"
        return "ok"

    def join(self):
        if len(self.all) == MOST_SESSIONS:
            return "fault Crowded"
        self.last += 1
        self.all[self.last] = Session()
        return f"id {self.last}"

    def of_session(self, word, number, rest):
        it = self.all.get(number)
        if it is None:
            return "fault Unknown"
        if word == "bytes":
            return self.heard(it, unescaped(rest[0]), False)
        if word == "end":
            return self.heard(it, b"", True)
        if word == "draw":
            return self.drawn(it, int(rest[0]))
        # a post that waits is withdrawn
        self.waiting = [other for other in self.waiting if other is not it]
        del self.all[number]
        return "ok"

    def answer(self, line):
        """What a line prints."""
        word, *fields = line.split(" ")
        if word == "now":
            self.now = int(fields[0])
            assert self.now <= GREATEST_MOMENT
            return "ok"
        if word == "text":
            return self.put_text(*fields)
        if word == "join":
            return self.join()
        if word == "flush":
            return self.flush()
        return self.of_session(word, int(fields[0]), fields[1:])
