"""Makes the files of the crates that hold vectors: python3 make_all.py [compare]

A crate's `stdin` is the inputs of its makers, one after another in the order below, and its `stdout` their answers in
the same order. With the argument `compare` nothing is written: the files that stand are held to those that are made.

The order keeps each maker's answers. An input that starts with calls before any table follows one that ends in a table
that cannot be read; that of the check, which ends within a table, is the last of its crate.
"""

import sys
from pathlib import Path

import listings
import make_check
import make_read
import make_rows
import make_write
import worked
from answer import MOST_INPUT_BYTES, answers

CRATES = Path(__file__).resolve().parents[2] / "crates"


def seeded(maker):
    """The input of a maker with its own seed, and the reference's answers."""
    data = maker.make(maker.DEFAULT_SEED).data()
    return data, list(answers(data))


def stated(made):
    """An input and the answers that the documents state."""
    return made.data(), made.answers


def parts():
    """The inputs of each crate with their answers, in their order."""
    yield "vectors_write", [seeded(make_write), seeded(make_check)]
    yield "vectors_read", [seeded(make_read)]
    yield "vectors_rows", [seeded(make_rows), stated(worked.worked()), stated(listings.stated_listings())]


def joined(made):
    """Both files of a crate. The reference has to give all answers again when it is asked in one go."""
    data = b"".join(part for part, _ in made)
    lines = [line for _, said in made for line in said]
    assert len(data) <= MOST_INPUT_BYTES, f"{len(data)} bytes are too many for one input"
    assert list(answers(data)) == lines, "the answers of one input are not those of its parts"
    return {"stdin": data, "stdout": "".join(line + "\n" for line in lines).encode()}


def put(file, data, compare):
    """Writes a file, or holds the one that stands to what was made. Whether they were the same."""
    same = file.exists() and file.read_bytes() == data
    if not same and not compare:
        file.write_bytes(data)
    found = "as it was" if same else "differs" if compare else "made anew"
    print(f"{file.relative_to(CRATES.parent)}: {len(data)} bytes, {found}")
    return same


def main():
    compare = sys.argv[1:] == ["compare"]
    if sys.argv[1:] and not compare:
        sys.exit("make_all.py: its one argument is compare")
    same = [put(CRATES / crate / name, data, compare) for crate, made in parts() for name, data in joined(made).items()]
    sys.exit(0 if all(same) or not compare else 1)


if __name__ == "__main__":
    main()
