"""The crates of the repository, and the edits of them that the prover must refuse."""
import glob
import os

TOP = os.path.dirname(os.path.dirname(os.path.realpath(__file__)))


def crates():
    """The crates that crates.txt lists, each with the libraries that it names."""
    found = {}
    with open(f"{TOP}/crates.txt", encoding="utf-8") as lines:
        for line in lines:
            name, colon, below = line.split("#")[0].partition(":")
            if colon:
                found[name.split()[0]] = below.split()
    return found


def edits(folder, crate="*"):
    """The edits of a crate, or of all, in that folder: `must-fail` are those of the gate, `wrong` all others."""
    return sorted(glob.glob(f"{TOP}/crates/{crate}/{folder}/*.edit"))


def read(path):
    with open(path, encoding="utf-8") as it:
        return it.read()
