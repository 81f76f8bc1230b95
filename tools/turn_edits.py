#!/usr/bin/env python3
"""Brings the must-fail edits to the spelling of today's Rattle, with the same wrong meaning: the scripts that turn the sources turn no edit.

usage: tools/turn_edits.py plant ROOT   before port.py: beside each file that an edit changes, a copy with the edit in it, as NAME__EDIT
       tools/turn_edits.py take ROOT TO behind port.py and tools/respell.py: each edit anew in TO, from what the copy and the file differ in

The copies go through the same scripts as the files, so what an edit says is turned as what it stands in is.
"""
import difflib
import glob
import os
import sys


def read(path):
    with open(path, encoding="utf-8") as f:
        return f.read()


def parsed(path):
    head, file, pairs, old = [], None, [], None
    for line in read(path).split("\n"):
        if line.startswith("file:"):
            file = line[5:].strip()
        elif line.startswith("old:"):
            old = line[4:].removeprefix(" ")
        elif line.startswith("new:"):
            pairs.append((old, line[4:].removeprefix(" ")))
        elif file is None:
            head.append(line)
    return head, file, pairs


def copy_of(root, edit, file):
    crate = edit.split("/")[-3]
    base, kind = os.path.splitext(os.path.join(root, "crates", crate, file))
    return base + kind, base + "__" + os.path.basename(edit)[:-5] + kind


def edits(root):
    return sorted(glob.glob(os.path.join(root, "crates", "*", "must-fail", "*.edit")))


def plant(root):
    for edit in edits(root):
        _, file, pairs = parsed(edit)
        base, to = copy_of(root, edit, file)
        text = read(base)
        for old, new in pairs:
            if text.count(old) != 1:
                print(f"not once: {edit}: {old}")
            text = text.replace(old, new)
        with open(to, "w", encoding="utf-8") as f:
            f.write(text)


def changes(old, new):
    """Pairs of lines, or None where a line is not for a line."""
    out = []
    for tag, a, b, c, d in difflib.SequenceMatcher(None, old, new, autojunk=False).get_opcodes():
        if tag == "equal":
            continue
        if tag != "replace" or b - a != d - c:
            return None
        out += list(zip(range(a, b), range(c, d)))
    return out


def take(root, to):
    bad = 0
    for edit in edits(root):
        head, file, pairs = parsed(edit)
        base, copy = copy_of(root, edit, file)
        text = read(base)
        found = changes(text.split("\n"), read(copy).split("\n"))
        crate = edit.split("/")[-3]
        where = os.path.join(to, "crates", crate, "must-fail", os.path.basename(edit))
        if not found:
            print(f"by hand: {crate} {os.path.basename(edit)}: {'nothing differs' if found == [] else 'lines do not go by pairs'}")
            bad += 1
            continue
        lines, others = text.split("\n"), read(copy).split("\n")
        out, now = [], text
        for a, b in found:
            old, new = lines[a], others[b]
            if now.count(old) != 1:
                print(f"by hand: {crate} {os.path.basename(edit)}: the line stands {now.count(old)} times: {old}")
                bad += 1
                break
            now = now.replace(old, new)
            out += [f"old: {old}", f"new: {new}"]
        else:
            with open(where, "w", encoding="utf-8") as f:
                f.write("\n".join([l for l in head if l] + [f"file: {file}"] + out) + "\n")
    print(f"{bad} by hand")


if __name__ == "__main__":
    if sys.argv[1] == "plant":
        plant(sys.argv[2])
    else:
        take(sys.argv[2], sys.argv[3])
