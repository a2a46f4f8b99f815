"""What is known to have been refused: on this machine, and by the ledger."""
import functools
import hashlib
import os
import re
import subprocess
import time

from crate_list import CRATES, KIT, TOP, below, read
from edits import bare

# what decides of a wrong body how it is tried, and what its verdict is
SCRIPTS = ("judging.py", "edits.py", "crate_list.py")
LEDGER = f"{TOP}/tests/refused.txt"
LEDGER_HEAD = """# The wrong bodies that were refused, each with the checksum of all that decides it. `tests/wrong_bodies --anew` and `--record` write these lines, and nobody else.
"""
# one wrong body in so many of the ledger is tried all the same
LOT = 8
# so many digits of a checksum stand in the ledger
DIGITS = 16
# lemmas that are imported, and those that an attribute names
IMPORTED = re.compile(r"Rattle\.(\w+)\.proofs\.(\w+(?:\.\w+)*)")
USED = re.compile(r"(\w+)::proofs::(\w+)")


def at_head():
    """The commit that stands here. None where there is no git."""
    ran = subprocess.run(["git", "rev-parse", "HEAD"], cwd=TOP, stdin=subprocess.DEVNULL, stdout=subprocess.PIPE, stderr=subprocess.DEVNULL, text=True, check=False)
    return ran.stdout.strip() or None


def hashed(lines):
    return hashlib.sha256("\n".join(lines).encode()).hexdigest()[:DIGITS]


class Ledger:
    """The wrong bodies that were refused, on whatever machine, each with the checksum of what decides it."""

    def __init__(self):
        text = read(LEDGER) if os.path.exists(LEDGER) else ""
        self.sums = dict(it.split() for it in text.splitlines() if it and not it.startswith("#"))

    def has(self, label, checksum):
        return self.sums.get(label) == checksum

    def write(self, sums, labels):
        """Puts these checksums into the lines of their wrong bodies, and takes the lines of those away that have none. Lines stay for these labels alone."""
        self.sums.update(sums)
        lines = [f"{label} {self.sums[label]}\n" for label in labels if self.sums.get(label)]
        with open(f"{LEDGER}.new", "w", encoding="utf-8") as it:
            it.write("".join([LEDGER_HEAD, *lines]))
        os.replace(f"{LEDGER}.new", LEDGER)


def falls(label, commit):
    """Whether a wrong body of the ledger is tried in a run of the gate all the same."""
    return commit is None or int(hashlib.sha256(f"{commit} {label}".encode()).hexdigest(), 16) % LOT == 0


def files_in(folder):
    """The files of a folder and of those in it, in one order on each machine."""
    found = []
    for at, folders, files in os.walk(folder):
        folders.sort()
        found += [f"{at}/{it}" for it in sorted(files)]
    return found


def seen_outside(path, content):
    """What another function can see of a file: of a source all but comments and the bodies of functions, of any other file all."""
    return bare(content.decode()).encode() if path.endswith(".rt") else content


def sum_of(path, seen=lambda _, content: content):
    """A file's name and the checksum of what is seen of it, the same on each machine, wherever the clone and the kit lie."""
    with open(path, "rb") as it:
        content = seen(path, it.read())
    return f"{os.path.relpath(path, TOP) if path.startswith(f'{TOP}/') else os.path.basename(path)} {hashlib.sha256(content).hexdigest()}"


@functools.lru_cache(maxsize=None)
def outside_of(name):
    """Of a crate's files what is seen outside of the functions: definitions, and sources without comments and bodies."""
    return [sum_of(it, seen_outside) for part in ("src", "specs") for it in files_in(f"{TOP}/crates/{name}/{part}")]


@functools.lru_cache(maxsize=None)
def around(name):
    """The checksum of what each function of a crate can see, but for lemmas: the kit, the scripts, and what is seen outside of the functions of this crate and of those below."""
    crates = [*below(name), name]
    lines = [f"{it}: {' '.join(CRATES[it])}" for it in crates]
    lines += [sum_of(it) for it in [f"{KIT}/KIT-ID", *(f"{TOP}/tests/{it}" for it in SCRIPTS)]]
    return hashed([*lines, *(it for crate in crates for it in outside_of(crate))])


@functools.lru_cache(maxsize=None)
def lemmas_named_in(path):
    """The files of lemmas that a file names: those that it imports, and those that an attribute of a function has the search use."""
    text, own = read(path), os.path.relpath(path, f"{TOP}/crates").split(os.sep)[0]
    named = [(crate, module.replace(".", "/")) for crate, module in IMPORTED.findall(text)]
    named += [(own if crate == "crate" else crate, module) for crate, module in USED.findall(text)]
    return [it for it in dict.fromkeys(f"{TOP}/crates/{crate}/proofs/{module}.antt" for crate, module in named) if os.path.isfile(it)]


@functools.lru_cache(maxsize=None)
def files_seen(name):
    """The files from which a function of a crate may come by lemmas, beside its own proof: the crate's sources, and its definitions and those below."""
    return [*files_in(f"{TOP}/crates/{name}/src"), *(it for crate in [*below(name), name] for it in files_in(f"{TOP}/crates/{crate}/specs"))]


def lemmas_behind(files):
    """The files of lemmas that are named in these, and in those again."""
    found, left = {}, [*files]
    while left:
        for it in lemmas_named_in(left.pop()):
            if it not in found:
                found[it] = True
                left.append(it)
    return sorted(found)


def forget():
    """Forgets what was read of the files, since they may have changed."""
    for it in (outside_of, around, lemmas_named_in, files_seen):
        it.cache_clear()


def proof_of(crate, proof):
    """The files of one proof: of a function, or of a cycle of functions."""
    folder, _, short = f"{crate.folder}/proofs/{proof.replace('::', '/')}".rpartition("/")
    return [it for at in (f"{folder}/{short}", f"{folder}/+{short}") for it in files_in(at)]


def inside_of(crate, functions):
    """The bodies and the proofs of these functions, and of those that are in a cycle with them."""
    proofs = sorted({it.proof for it in functions})
    lines = []
    for it in crate.functions:
        if it.proof in proofs:
            first, end = it.body
            lines.append(f"{it.file} {it.name} {hashed([crate.texts[it.file][first:end]])}")
    own = [it for proof in proofs for it in proof_of(crate, proof)]
    return [*lines, *(sum_of(it) for it in [*own, *lemmas_behind([*own, *files_seen(crate.name)])])]


class Kept:
    """What was refused on this machine before: for each wrong body a file that is named by the checksum of all that decides it. That is the wrong body and its control,
    the bodies and proofs of the functions that it changes, and what these functions see: of their crate and of those below the definitions, the sources without comments
    and bodies, and the lemmas that are named in what they see."""

    FOLDER = os.path.join(os.environ.get("XDG_CACHE_HOME") or os.path.expanduser("~/.cache"), "zigdular", "wrong-bodies")

    def __init__(self, kinds):
        self.kinds = kinds

    def has_ledger(self):
        """The ledger speaks of wrong-bodies alone."""
        return self.kinds == ["wrong-bodies"]

    def checksum(self, edit):
        lines = [around(edit.crate.name), *inside_of(edit.crate, edit.functions)]
        return hashed([*lines, *(sum_of(it) for it in (edit.path, edit.control) if os.path.isfile(it))])

    def file(self, edit, checksum):
        return f"{self.FOLDER}/{edit.label.replace('/', '-')}-{checksum}"

    def has(self, edit, checksum):
        return os.path.exists(self.file(edit, checksum))

    def keep(self, edit, checksum):
        """Notes that a wrong body was refused. A folder that can't be written keeps nothing."""
        try:
            os.makedirs(self.FOLDER, exist_ok=True)
            with open(self.file(edit, checksum), "w", encoding="utf-8") as it:
                it.write(time.strftime("%Y-%m-%d %H:%M UTC\n", time.gmtime()))
        except OSError as error:
            print(f"{edit.label}: not kept: {error}", flush=True)
