"""What the bytes of a session ask for, written once more by the document PROTOCOL: nothing of the program is read here."""
from dataclasses import dataclass

MOST_LINE = 1024
MOST_DATA = 32_768


class Bad(Exception):
    """The request is refused: too long, or not understood."""


TOO_LONG = "Request too long"
NOT_UNDERSTOOD = "Request not understood"


@dataclass
class Request:
    selector: bytes
    words: bytes | None = None
    # b"+", b"!" or b"$", or none
    plus: bytes | None = None
    view: tuple | None = None
    names: tuple = ()
    lines: list | None = None


def first_line(data):
    """The first line and what is behind it, or none where its LF hasn't come."""
    end = data.find(b"\n")
    if end > MOST_LINE or end < 0 and len(data) > MOST_LINE:
        raise Bad(TOO_LONG)
    if end < 0:
        return None
    return without_cr(data[:end]), data[end + 1:]


def without_cr(line):
    return line[:-1] if line.endswith(b"\r") else line


def lines_of(data):
    """The lines of a text or of data: a last part without LF is one where it has bytes."""
    *whole, last = data.split(b"\n")
    return [without_cr(it) for it in whole] + ([last] if last else [])


def view_of(text):
    """The view that a fetch names, with its language, or none."""
    if not text:
        return None
    name, _, language = text.partition(b" ")
    if not name:
        raise Bad(NOT_UNDERSTOOD)
    return name, language or None


def parsed(line):
    """The request of a line, and whether data follow."""
    if b"\0" in line or b"\r" in line:
        raise Bad(NOT_UNDERSTOOD)
    selector, *fields = line.split(b"\t")
    while fields and not fields[-1]:
        fields.pop()
    if len(selector) > 255:
        raise Bad(TOO_LONG)
    request = Request(selector)
    if fields and not fields[0]:
        fields.pop(0)
    if fields and fields[0][:1] not in (b"+", b"!", b"$"):
        request.words = fields.pop(0)
    if not fields:
        return request, False
    part = fields.pop(0)
    if part[:1] not in (b"+", b"!", b"$"):
        raise Bad(NOT_UNDERSTOOD)
    request.plus = part[:1]
    if request.plus == b"+":
        request.view = view_of(part[1:])
    else:
        request.names = tuple(it for it in part[1:].split(b" ") if it)
    if fields and (len(fields) > 1 or fields[0] not in (b"0", b"1") or fields[0] == b"1" and request.plus != b"+"):
        raise Bad(NOT_UNDERSTOOD)
    return request, fields == [b"1"]


def dotted(data):
    """The lines before the first that is one period, or none where that hasn't come."""
    lines, at = [], 0
    while True:
        end = data.find(b"\n", at)
        if end < 0 or end >= MOST_DATA:
            return None
        line = without_cr(data[at:end])
        if line == b".":
            return lines
        lines.append(line[1:] if line.startswith(b"..") else line)
        at = end + 1


def data_lines(head, data, ended):
    """The lines of the data behind a head line, or none where they aren't whole."""
    if head == b"+-1":
        lines = dotted(data)
    elif head == b"+-2":
        lines = lines_of(data) if ended and len(data) <= MOST_DATA else None
    else:
        digits = head[1:]
        if head[:1] != b"+" or not 1 <= len(digits) <= 5 or not all(it in b"0123456789" for it in digits):
            raise Bad(NOT_UNDERSTOOD)
        if int(digits) > MOST_DATA:
            raise Bad(TOO_LONG)
        lines = lines_of(data[:int(digits)]) if len(data) >= int(digits) else None
    if lines is None and len(data) > MOST_DATA:
        raise Bad(TOO_LONG)
    return lines


def request_of(heard, ended):
    """The request that was heard, or none where it isn't whole; `Bad` where it is refused."""
    line = first_line(heard)
    if line is None:
        return None
    request, has_data = parsed(line[0])
    if not has_data:
        return request
    head = first_line(line[1])
    if head is None:
        return None
    lines = data_lines(head[0], head[1], ended)
    if lines is None:
        return None
    request.lines = lines
    return request
