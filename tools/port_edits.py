#!/usr/bin/env python3
"""Brings the must-fail edits to the spelling of the Rattle that this repository was ported to.

usage: python3 tools/port_edits.py --first    before the kit's port.py: beside each file that an edit changes, one as the edit
                                               makes it, so that port.py and port_names.py turn both
       python3 tools/port_edits.py            after them and 'rt fmt' in each crate: writes each edit anew, by the lines in which
                                               the two files differ, where its text no longer stands; removes the made files

Run in the repository's top folder. An edit that has to be brought over by hand is named.
"""

import difflib
import glob
import os
import sys

sys.dont_write_bytecode = True

from port_names import main, read, write


def parsed(edit):
    """The file that an edit changes, and its pairs of texts."""
    file, pairs = None, []
    for line in read(edit).split("\n"):
        if line.startswith("file: "):
            assert file in (None, line[6:]), edit
            file = line[6:]
        elif line.startswith("old: "):
            pairs.append([line[5:], None])
        elif line.startswith("new:"):
            pairs[-1][1] = line[5:]
    return file, pairs


def edited(text, pairs):
    """The text with the pairs applied, or None where one of them has no place."""
    for old, new in pairs:
        if text.count(old) != 1:
            return None
        text = text.replace(old, new)
    return text


def edits():
    """Each edit with the file that it changes and the one that is made beside it."""
    for number, edit in enumerate(sorted(glob.glob("crates/*/must-fail/*.edit"))):
        file, pairs = parsed(edit)
        path = os.path.join("crates", edit.split(os.sep)[1], file)
        base, ending = os.path.splitext(path)
        made = f"{base}Edit{number}{ending}" if ending == ".antt" else f"{base}_edit{number}{ending}"
        yield edit, file, pairs, path, made


def first():
    for edit, _, pairs, path, made in edits():
        text = edited(read(path), pairs)
        assert text is not None, edit
        write(made, text)


def again():
    kept = written = 0
    for edit, file, pairs, path, made in list(edits()):
        old, new = read(path), read(made)
        lines, wanted = old.split("\n"), new.split("\n")
        found, is_even = [], True
        for tag, i, j, k, l in difflib.SequenceMatcher(None, lines, wanted, False).get_opcodes():
            if tag != "equal":
                is_even = is_even and j - i == l - k
                found += [[a.strip(), b.strip()] for a, b in zip(lines[i:j], wanted[k:l]) if a != b]
        stands = edited(old, pairs)
        # What a layout of several lines makes of an edit can't be written in one; there the old text still stands.
        if stands is not None and (stands == new or not is_even):
            kept += 1
        elif is_even and edited(old, found) == new:
            body = "".join(f"old: {a}\nnew: {b}\n" for a, b in found)
            write(edit, f"file: {file}\n{body}")
            written += 1
        else:
            print(f"by hand: {edit}")
        os.remove(made)
    print(f"{kept} edits stand, {written} written anew")


if __name__ == "__main__":
    main(__doc__, first, again)
