"""Keeps which functions a crate has, as the prover names them, for a later run that finds the crate proved.

A module of tools/gate.py. `rt ci` tells a crate's functions only in the run that proves it. A run that finds it proved
would prove it once more to know them, which takes longer than its edits. So they are kept in the user's cache, by the
contents of the crate and of those below it, and by the kit. A name that is wrong or missing has its edits tried alone,
over the whole crate: that takes longer, and no edit counts that wouldn't otherwise.
"""
import hashlib
import os
import tempfile
from pathlib import Path

import program

FOLDER = "functions"


def sum_of(crate, kit_id):
    """A sum of what the names of a crate's functions follow from."""
    return hashlib.sha256(f"{program.digest(crate)} {kit_id}".encode()).hexdigest()[:16]


def file_of(crate, kit_id):
    """Where a crate's functions are kept, whatever they are."""
    return program.folders()[1] / FOLDER / f"{crate}-{sum_of(crate, kit_id)}"


def functions_of(crate, symbols, kit_id):
    """These functions of a crate, which are kept; where there are none, those that an earlier run kept, if it did."""
    file = file_of(crate, kit_id)
    try:
        if symbols:
            keep(file, symbols)
        return symbols or file.read_text().split("\n")
    except OSError:
        return symbols


def keep(file, symbols):
    """Keeps them in that file, whole, in the place of what was kept of the same crate."""
    file.parent.mkdir(parents=True, exist_ok=True)
    older = [*file.parent.glob(f"{file.name.rpartition('-')[0]}-*")]
    with tempfile.NamedTemporaryFile("w", dir=file.parent, delete=False) as made:
        made.write("\n".join(symbols))
    os.replace(made.name, file)
    for each in older:
        if each != file:
            Path(each).unlink(missing_ok=True)
