"""The crates of the repository, and what each stands on."""
import os
import shutil

TOP = os.path.dirname(os.path.dirname(os.path.realpath(__file__)))
KIT = os.path.dirname(os.path.dirname(os.path.realpath(shutil.which("rt") or "/opt/rattle/bin/rt")))
PARTS = ("src", "specs", "proofs")


def read(path):
    with open(path, encoding="utf-8") as it:
        return it.read()


def crates():
    """The crates of the repository with what each stands on, as crates.txt has them."""
    found = {}
    for line in read(f"{TOP}/crates.txt").splitlines():
        line = line.partition("#")[0].strip()
        if line:
            name, _, needs = line.partition(":")
            found[name.split()[0]] = needs.split()
    return found


CRATES = crates()


def below(name):
    """The repository's crates that a crate stands on, itself left out."""
    found = []
    for need in CRATES[name]:
        if need in CRATES:
            found += [it for it in [*below(need), need] if it not in found]
    return found
