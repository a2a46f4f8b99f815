"""The functions of a crate by its sources, and its wrong bodies: which functions each changes, and in which rounds they are tried."""
import functools
import os
import re

from crate_list import TOP, read


class Function:
    """A function of a crate: its file, its lines, the name that a check prints, below the crate, where its body begins and ends, and the cycle of calls that it names."""

    def __init__(self, file, first, last, name, body, is_const, cycle):
        self.file, self.first, self.last, self.name, self.body, self.is_const, self.cycle = file, first, last, name, body, is_const, cycle

    @property
    def proof(self):
        """The name under which its proof lies: functions of one cycle share one."""
        outer, joint, _ = self.name.rpartition("::")
        return f"{outer}{joint}{self.cycle}" if self.cycle else self.name

    def has_goal(self, goal):
        """Whether a goal of its proof is its own: in the proof of a cycle a goal's name begins with that of its function."""
        words = re.match(r"`([^`]*)`", goal)[1].split("-")
        return not self.cycle or self.name.rpartition("::")[2] in words[: 2 if words[0] in ("invariant", "decreases") else 1]


def blanked(text):
    """The text with the insides of comments and literals blanked, so that braces and names there do not count."""
    kept = re.compile(r"//[^\n]*|\"(?:\\.|[^\"\\])*\"|b?'(?:\\(?:x[0-9A-Fa-f]{2}|.)|[^\\'\n])'", re.S)
    return kept.sub(lambda it: re.sub(r"[^\n]", " ", it[0]), text)


def uncommented(text):
    """The text without its comments. A slash within a literal begins none."""
    return re.sub(r"//[^\n]*|(\"(?:\\.|[^\"\\])*\"|b?'(?:\\(?:x[0-9A-Fa-f]{2}|.)|[^\\'\n])')", lambda it: it[1] or "", text, flags=re.S)


def end_of_braces(text, at):
    """The place behind the brace that closes the one at this place."""
    depth = 0
    for place in range(at, len(text)):
        depth += {"{": 1, "}": -1}.get(text[place], 0)
        if depth == 0:
            return place + 1
    return len(text)


def impl_name(head):
    """The name that a check gives an impl by its head: the type, and the trait behind it."""
    head = re.sub(r"\bwhere\b.*", "", head, flags=re.S).strip()
    parameters = []
    if head.startswith("<"):
        depth = 0
        for place, sign in enumerate(head):
            depth += {"<": 1, ">": -1}.get(sign, 0)
            if depth == 0:
                parameters = re.findall(r"(?:^<|,)\s*(\w+)", head[: place + 1])
                head = head[place + 1 :].strip()
                break
    of, found, to = head.partition(" for ")
    outer = lambda it: re.match(r"[&\[\s]*(?:'\w+\s+)?(?:mut\s+)?(?:\w+::)*(\w+)", it)[1]
    if not found:
        return outer(head), None
    arguments = of[of.find("<") + 1 : of.rfind(">")] if "<" in of else ""
    named = re.findall(r"\w+", arguments) if "<" in arguments else [outer(arguments)] if arguments else []
    # an impl for each type that has a trait is called so
    of_type = "Any" if outer(to) in parameters else outer(to)
    return of_type, outer(of) + "".join(it[0].upper() + it[1:] for it in named)


def module_of(file):
    """The path of a source file's module, as it stands before a name in it."""
    module = file[len("src/") : -len(".rt")].replace("/", "::")
    return "" if module in ("lib", "main") else f"{module}::"


def types_of(texts):
    """The module of each type that is declared, since a method goes by the module of its type, and one of a trait by its impl's."""
    return {it[1]: module_of(file) for file, text in texts.items() for it in re.finditer(r"\b(?:struct|enum)\s+(\w+)", blanked(text))}


def functions_of(file, text, types):
    """The functions with a body in a source file."""
    plain = blanked(text)
    module = module_of(file)
    inside = []
    for it in re.finditer(r"\b(impl|trait|mod)\b([^;{}]*)\{", plain):
        if it[1] == "impl":
            of_type, trait = impl_name(it[2])
            name = f"{module if trait else types.get(of_type, module)}{of_type}{trait or ''}::"
        else:
            name = f"{module}{re.match(r'[^a-zA-Z]*([a-zA-Z_]*)', it[2])[1]}::"
        inside.append((it.end() - 1, end_of_braces(plain, it.end() - 1), name))
    found = []
    for it in re.finditer(r"\bfn\s+(\w+)", plain):
        place, depth = it.end(), 0
        # the body is the first brace behind the clauses, each of which is a word and a brace
        while place < len(plain):
            clause = re.compile(r"\s*(?:requires|ensures|ghost|terminates|decreases)\*?\s*(?:\w+\s*)?(?::\s*)?\{").match(plain, place)
            if depth == 0 and clause:
                place = end_of_braces(plain, clause.end() - 1)
                continue
            sign = plain[place]
            depth += {"(": 1, "[": 1, ")": -1, "]": -1}.get(sign, 0)
            if depth == 0 and sign in "{;":
                break
            place += 1
        if place >= len(plain) or plain[place] == ";":
            continue
        end = end_of_braces(plain, place)
        around = "".join(name for start, end, name in inside if start < it.start() < end) or module
        lines = text.split("\n")
        first, last = (text.count("\n", 0, at) + 1 for at in (it.start(), end))
        # a goal at the function's head is reported at its first attribute
        while first > 1 and re.match(r"\s*(#\[|///)", lines[first - 2]):
            first -= 1
        cycle = re.search(r"#\[cycle\((\w+)\)\]", "\n".join(lines[first - 1 : last]))
        is_const = re.search(r"\bconst\s+(?:unsafe\s+)?$", plain[: it.start()]) is not None
        found.append(Function(file, first, last, f"{around}{it[1]}", (place, end), is_const, cycle[1] if cycle else None))
    return found


@functools.lru_cache(maxsize=None)
def bare(text):
    """A source without its comments and without the bodies of its functions, but for those that are computed where they are named."""
    kept, at = [], 0
    for it in sorted(functions_of("src/lib.rt", text, {}), key=lambda it: it.body[0]):
        first, end = it.body
        if not it.is_const and first >= at:
            kept += [text[at:first], "{}"]
            at = end
    text = "".join([*kept, text[at:]])
    return "\n".join(line.rstrip() for line in uncommented(text).split("\n") if line.strip())


def constant_at(text, place):
    """The constant or static item that holds this place, if one does."""
    plain = blanked(text)
    for it in re.finditer(r"\b(?:const|static)\s+(\w+)\s*:", plain):
        if it.start() <= place < plain.find(";", it.end()) + 1 and not re.search(r"\bfn\b", plain[it.start() : place]):
            return it[1]
    return None


class Crate:
    def __init__(self, name):
        self.name, self.folder = name, f"{TOP}/crates/{name}"
        self.texts = {}
        for at, folders, files in os.walk(f"{self.folder}/src"):
            folders.sort()
            for it in sorted(files):
                if it.endswith(".rt"):
                    self.texts[os.path.relpath(f"{at}/{it}", self.folder)] = read(f"{at}/{it}")
        self.functions = spans(self.texts)

    def users(self, constant, seen=()):
        """The functions that use a constant, by others too."""
        found, word = [], re.compile(rf"\b{constant}\b")
        for file, text in self.texts.items():
            for it in word.finditer(blanked(text)):
                found += self.changed(file, it.start(), (*seen, constant))
        return [it for at, it in enumerate(found) if it not in found[:at]]

    def changed(self, file, place, seen=()):
        """The functions that a change at this place of a file belongs to."""
        constant = constant_at(self.texts[file], place)
        if constant:
            return [] if constant in seen else self.users(constant, seen)
        line = self.texts[file].count("\n", 0, place) + 1
        around = [it for it in self.functions if it.file == file and it.first <= line <= it.last]
        return [max(around, key=lambda it: it.first)] if around else []


class Edit:
    """One wrong body: what it makes of the texts of its files, and the functions that it changes."""

    def __init__(self, crate, path):
        self.label = f"{crate.name}/{os.path.basename(path)[: -len('.edit')]}"
        self.path, self.control = path, f"{crate.folder}/controls/{os.path.basename(path)}"
        self.crate, self.pairs, self.functions, self.why = crate, [], [], None
        file, old = None, None
        for line in read(path).split("\n"):
            word, _, rest = line.partition(" ")
            if word == "file:":
                file = rest.strip()
            elif word == "old:":
                old = rest
            elif word == "new:":
                self.add(file, old, rest)
        if not self.pairs and not self.why:
            self.why = "it has no 'old:' and 'new:' pair"
        if not self.functions and not self.why:
            self.why = "it changes no function's body"
        if not self.why and self.apply(crate.texts) is None:
            self.why = "behind one of its pairs the 'old:' text of another one does not stand once"

    def add(self, file, old, new):
        text = self.crate.texts.get(file or "")
        if text is None or not old or text.count(old) != 1:
            self.why = f"an 'old:' text stands {0 if text is None else text.count(old or '')} times in {file}, and not once"
            return
        place = text.index(old)
        # where the old text begins with what stays, the change itself lies behind that
        same = len(os.path.commonprefix([old, new]))
        place += min(same, len(old) - 1)
        self.pairs.append((file, old, new))
        self.functions += [it for it in self.crate.changed(file, place) if it not in self.functions]

    def apply(self, texts):
        """The texts with this edit in them, or none where another edit of the round is in its way."""
        texts = dict(texts)
        for file, old, new in self.pairs:
            if texts[file].count(old) != 1:
                return None
            texts[file] = texts[file].replace(old, new)
        return texts


def rounds_of(crate, edits):
    """The edits in rounds: in each no function is changed twice, no two functions of one cycle are changed, and each edit's text stands once."""
    rounds = []
    for edit in edits:
        # the functions of a cycle have one proof, whose goals can't be told apart
        proofs = {f.proof for f in edit.functions}
        for it in rounds:
            texts = edit.apply(it["texts"])
            if texts and not proofs & it["proofs"]:
                it["texts"] = texts
                it["proofs"] |= proofs
                it["edits"].append(edit)
                break
        else:
            rounds.append({"texts": edit.apply(crate.texts), "proofs": proofs, "edits": [edit]})
    return rounds


def spans(texts):
    """Where the functions stand in these texts."""
    types = types_of(texts)
    return [it for file in texts for it in functions_of(file, texts[file], types)]


def edits_of(crate, kinds):
    folders = [f"{crate.folder}/{it}" for it in kinds if os.path.isdir(f"{crate.folder}/{it}")]
    return [Edit(crate, f"{folder}/{it}") for folder in folders for it in sorted(os.listdir(folder))]
