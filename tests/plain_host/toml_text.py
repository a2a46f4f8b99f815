"""Tables as a document of TOML."""
import re

SIGNS = {'"': '\\"', "\\": "\\\\", "\n": "\\n", "\t": "\\t", "\r": "\\r"}


def string(text):
    return '"' + re.sub('["\\\\\x00-\x1f\x7f]', lambda it: SIGNS.get(it[0]) or f"\\u{ord(it[0]):04x}", text) + '"'


def value(it):
    if isinstance(it, bool):
        return "true" if it else "false"
    if isinstance(it, str):
        return string(it)
    if isinstance(it, list):
        return "[" + ", ".join(map(value, it)) + "]"
    if isinstance(it, dict):
        return "{" + ", ".join(f"{key} = {value(one)}" for key, one in it.items()) + "}"
    return repr(it)


def file_of(tables):
    """A file of changes."""
    if not tables:
        return "change = []\n"
    return "\n".join("[[change]]\n" + "".join(f"{key} = {value(it)}\n" for key, it in table.items()) for table in tables)
