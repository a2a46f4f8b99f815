"""Judges wrong bodies of a crate: checks a copy of it with some of them in place, and says of each whether a goal of a function that it changes is refused.

How it judges decides what a verdict is worth, so this file is part of the checksum of each verdict. In which order wrong bodies are tried, and when, is the matter of `tests/wrong_bodies`."""
import os
import re
import shutil
import subprocess
import sys
import tempfile
import threading
import time

from crate_list import CRATES, KIT, PARTS, TOP, below, read
from edits import Edit, rounds_of, spans

# a check can be ended with all that it has started; in a session of its own its niceness would not count beside the others
OWN_GROUP = {"process_group": 0} if sys.version_info >= (3, 11) else {}
# A goal that the prover leaves open, reported at its place in the source; and one whose written answer it refuses, reported in the function's proofs.
OPEN = re.compile(r"note: (?:\./)?(src/\S+?\.rt):(\d+):\d+: (?:it is not proved|`search` found no proof)")
ANSWERED = re.compile(r"(?:\./)?proofs/(\S+)/(?:Answers|Invariants|Proof)\.antt:\d+:\d+: error: (`[^`]*`: .*)")
BY_ANSWER = "by an answer alone: "
# The proof file only names what the edit took away.
MISFIT = re.compile(r"has no field|is not in scope|has no `|was not admitted|is no name")

# so many checks run at a time
LANES = int(os.environ.get("RT_JOBS") or len(os.sched_getaffinity(0)))
lanes = threading.Semaphore(LANES)
# the folder of all others, and the checks that run
rooms, running = [], set()
# the seconds from the end of one function's check to the end of the next, of what was checked
costs = []


def rlib(name):
    return f"{TOP}/crates/{name}/out/rlib/{name}.rlib"


def root_file(name):
    return "src/main.rt" if os.path.isfile(f"{TOP}/crates/{name}/src/main.rt") else "src/lib.rt"


def check_words(name, only, kept):
    """The prover's command for some functions of a crate, over built libraries."""
    words = [f"{KIT}/bin/rattle", "check", "--crate-name", name, root_file(name)]
    for it in ["std", *CRATES[name]]:
        words += ["--extern", f"{it}={rlib(it) if it in CRATES else f'{KIT}/rlibs/{it}.rlib'}"]
    for folder in [f"{KIT}/rlibs", *(os.path.dirname(rlib(it)) for it in below(name))]:
        words += ["-L", f"dependency={folder}"]
    words += ["--antt-project", f"{KIT}/rattle/logic/antt-project.json", "--logic-built", f"{KIT}/logic_built"]
    words += ["--links", f"{name}=", "--jobs", "1", "--incremental", kept]
    for it in sorted(only):
        words += ["--only", it]
    return words


HOLE = """use Rattle.{crate}.proofs.{path}.Statement.{{statement}}

pub {name}_spec : {{M : Type 1}} → statement M
{name}_spec = ?
"""
# A hole that the prover does not take for a function's proof.
MISPLACED = re.compile(r"(?m)^(?:\./)?proofs/\S+/Proof\.antt:\d+:\d+: error")
# An answer to a goal that is not there: with it the prover still tries each goal, but does not work out what an answer to an open one could look like.
NO_GOAL = """
pub no-such-goal : goal.no-such-goal
no-such-goal = ?
"""


def proof_folder(room, name):
    """The folder of a function's proof. None where it calls itself: there one proof stands for all functions of the cycle."""
    folder, _, short = f"{room}/proofs/{name.replace('::', '/')}".rpartition("/")
    return None if os.path.isdir(f"{folder}/+{short}") else f"{folder}/{short}"


def leave_out(crate, room, texts, only):
    """Puts a hole in the place of each other function's proof, and nothing in its body: what calls it stands on its contract alone."""
    stand = spans(texts)
    left_out = {it.name for it in crate.functions if it.name not in only and not it.cycle and proof_folder(room, it.name)}
    for name in sorted(left_out):
        folder = proof_folder(room, name)
        shutil.rmtree(folder, ignore_errors=True)
        os.makedirs(folder)
        with open(f"{folder}/Proof.antt", "w", encoding="utf-8") as it:
            it.write(HOLE.format(crate=crate.name, path=name.replace("::", "."), name=name.rpartition("::")[2]))
    for file, text in texts.items():
        inside = [it for it in stand if it.file == file]
        for it in sorted(inside, key=lambda it: -it.body[0]):
            first, end = it.body
            if it.name in left_out and not it.is_const and not any(first < other.body[0] < end for other in inside):
                # each line stays at its number
                text = text[:first] + "{ unreachable!() }" + "\n" * text.count("\n", first, end) + text[end:]
        with open(f"{room}/{file}", "w", encoding="utf-8") as it:
            it.write(text)


def take_no_advice(crate, room, only):
    """Keeps the prover from writing the files that it would offer for each open goal of these functions."""
    for name in only:
        folder = proof_folder(room, name)
        if folder is None or os.path.exists(f"{folder}/Proof.antt"):
            continue
        os.makedirs(folder, exist_ok=True)
        file = f"{folder}/Answers.antt"
        written = read(file) if os.path.exists(file) else f"use Rattle.{crate.name}.proofs.{name.replace('::', '.')}.Goals as goal\n"
        if "Goals as goal" in written:
            with open(file, "w", encoding="utf-8") as it:
                it.write(written + NO_GOAL)


def check(crate, texts, edits, kept, leaves=True):
    """What the prover says of a copy of the crate with these texts. Of functions that no edit changes it reads and proves nothing where it `leaves` them out."""
    only = {it.name for edit in edits for it in edit.functions}
    with room_of_its_own() as room:
        for part in PARTS:
            if os.path.isdir(f"{crate.folder}/{part}"):
                shutil.copytree(f"{crate.folder}/{part}", f"{room}/{part}")
        for file, text in texts.items():
            with open(f"{room}/{file}", "w", encoding="utf-8") as it:
                it.write(text)
        if leaves:
            leave_out(crate, room, texts, only)
            take_no_advice(crate, room, only - {it.name for it in crate.functions if it.cycle})
        words = [*check_words(crate.name, only, kept), "--progress", *(["--allow-holes"] if leaves else [])]
        how = {"cwd": room, "stdin": subprocess.DEVNULL, "stdout": subprocess.PIPE, "stderr": subprocess.STDOUT}
        said = []
        with lanes, subprocess.Popen(words, text=True, errors="replace", **OWN_GROUP, **how) as run:
            last = time.monotonic()
            running.add(run.pid)
            for line in run.stdout:
                said.append(line)
                proved = re.match(r"checked (?:\w+::)?(\S+), \d+ of \d+", line)
                if proved:
                    now = time.monotonic()
                    costs.append((now - last, crate.name, proved[1]))
                    last = now
            running.discard(run.pid)
    return "".join(said)


def judged(texts, edits, said):
    """What came of each edit of a round: whether it was refused, and by what. None where the check did not reach the prover."""
    lines = said.split("\n")
    if not next((it for it in reversed(lines) if it), "").startswith("only="):
        return None
    is_open, answered, misfits = {}, {}, {}
    for it in lines:
        goal, answer = OPEN.match(it), ANSWERED.match(it)
        if goal:
            is_open.setdefault(goal[1], []).append((int(goal[2]), it[len("note: ") :]))
        elif answer and "no-such-goal" not in answer[2]:
            # the proof of a function that calls itself lies under its name with a plus
            where = misfits if MISFIT.search(answer[2]) else answered
            where.setdefault(answer[1].replace("/", "::").replace("+", ""), []).append(answer[2])
    found, stand = [], spans(texts)
    for edit in edits:
        changed = {(it.file, it.name) for it in edit.functions}
        goals = [goal for it in stand if (it.file, it.name) in changed for line, goal in is_open.get(it.file, []) if it.first <= line <= it.last]
        first = "" if goals else BY_ANSWER
        goals += [f"the goal {goal}" for it in edit.functions for goal in answered.get(it.proof, []) if it.has_goal(goal)]
        first += f"{goals[0]}{f' (and {len(goals) - 1} more)' if len(goals) > 1 else ''}" if goals else ""
        misfit = [goal for it in edit.functions for goal in misfits.get(it.proof, [])]
        missed = f"MISFIT: an answer names what the edit took away: the goal {misfit[0]}" if misfit else "NOT REFUSED: no goal of a function that it changes is refused"
        found.append((edit, bool(goals), first if goals else missed))
    return found


def try_round(crate, edits, kept, leaves=True):
    """Checks one round, with all bodies in place where the prover does not take it without them or refuses no goal of an edit, and each edit alone where it does not reach the prover."""
    texts = dict(crate.texts)
    for edit in edits:
        texts = edit.apply(texts)
    said = check(crate, texts, edits, kept, leaves)
    found = judged(texts, edits, said)
    if leaves and (found is None or MISPLACED.search(said)):
        print(f"{crate.name}: a round is checked once more, with all bodies in place", flush=True)
        return try_round(crate, edits, kept, leaves=False)
    if found is not None:
        # a misfit stays one, whatever stands around it
        missed = [edit for edit, is_refused, said in found if not is_refused and not said.startswith("MISFIT")]
        if leaves and missed:
            print(f"{crate.name}: {len(missed)} edits are tried once more, with all bodies in place", flush=True)
            return [it for it in found if it[0] not in missed] + try_round(crate, missed, kept, leaves=False)
        return found
    if len(edits) > 1:
        return [it for edit in edits for it in try_round(crate, [edit], kept)]
    first = next((it for it in said.split("\n") if "error" in it), said[-300:])
    return [(edits[0], False, f"BAD EDIT: it did not reach the prover: {first}")]


def needs_control(edit, said):
    """Whether an edit's verdict hangs on its control: it was refused by an answer alone, and has one."""
    return said.startswith(BY_ANSWER) and os.path.isfile(edit.control)


def try_controls(crate, found, kept):
    """The same verdicts, but that an edit fails which an answer alone refuses, as it refuses an edit of the same shape and no other meaning."""
    controls = {edit.label: Edit(crate, edit.control) for edit, is_refused, said in found if is_refused and needs_control(edit, said)}
    told = {label: f"BAD CONTROL: {it.why}" for label, it in controls.items() if it.why}
    for it in rounds_of(crate, [it for it in controls.values() if not it.why]):
        for leaves in (True, False):
            said = check(crate, it["texts"], it["edits"], kept, leaves)
            verdicts = None if leaves and MISPLACED.search(said) else judged(it["texts"], it["edits"], said)
            if verdicts is not None:
                break
        for control in it["edits"]:
            verdict = next((why for edit, is_refused, why in verdicts or [] if edit is control and (is_refused or why.startswith("MISFIT"))), None)
            told[control.label] = "BAD CONTROL: it did not reach the prover" if verdicts is None else verdict and f"SHOWS NOTHING: its control is refused too, {verdict}"
    return [(edit, False, told[edit.label]) if told.get(edit.label) else (edit, is_refused, f"{said}; its control is not" if edit.label in controls else said) for edit, is_refused, said in found]


def room_of_its_own():
    """A folder that is gone afterwards, also where this run is ended."""
    return tempfile.TemporaryDirectory(prefix="wrong-bodies-", dir=rooms[-1] if rooms else None)
