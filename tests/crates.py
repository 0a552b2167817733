"""The crates of a Rattle repository, as its crates.txt has them."""
import os
from pathlib import Path


def crates_of(top):
    """The words behind each crate's name in crates.txt, and what it stands on."""
    lines = [line.split("#")[0].partition(":") for line in Path(f"{top}/crates.txt").read_text(encoding="utf-8").split("\n")]
    return {head.split()[0]: (head.split()[1:], uses.split()) for head, colon, uses in lines if colon}


def below(top, name):
    """The crates of the repository that a crate stands on, at any depth."""
    crates, found = crates_of(top), []
    todo = [name]
    while todo:
        for one in crates[todo.pop()][1]:
            if one in crates and one not in found:
                found.append(one)
                todo.append(one)
    return found


def sources(folder):
    """The files of a crate that its proof reads."""
    return [f"{at}/{it}" for part in ("src", "specs", "proofs") for at, _, names in os.walk(f"{folder}/{part}") for it in names]
