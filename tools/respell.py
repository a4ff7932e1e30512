#!/usr/bin/env python3
"""Brings a checkout of the older form to today's spelling: run at the top, behind the kit's port.py. Its names are rename.py's.

The kit's port.py takes a folder in which any word of a newer library stands for one that was turned already, and then
leaves out most of its steps. Here one variable of the source, `so_far`, is such a word. So the crates are taken back to
the commit, and port.py's own steps run on all of them, without that test.
"""

import importlib.util
import os
import subprocess
import sys

import rename

KIT = "/opt/rattle/port/port.py"
GUESS = "old = [it for it in copies if not is_respelled(read_below(it))]"


def git(*words):
    subprocess.run(["git", *words], check=True)


def port():
    spec = importlib.util.spec_from_file_location("port", KIT)
    kit = importlib.util.module_from_spec(spec)
    spec.loader.exec_module(kit)
    lent = kit.library

    def library():
        top, notes = lent()
        path = os.path.join(notes, kit.UPGRADE)
        with open(path, encoding="utf-8") as f:
            text = f.read()
        if GUESS not in text:
            sys.exit(f"{kit.UPGRADE}: the test that is left out is not there")
        with open(path, "w", encoding="utf-8") as f:
            f.write(text.replace(GUESS, "old = list(copies)"))
        return top, notes

    kit.library = library
    return kit.turn(os.getcwd())


def main():
    git("checkout", "-q", "HEAD", "--", "crates")
    git("clean", "-fdq", "crates")
    if port():
        sys.exit("the port failed")
    rename.main(os.getcwd())


main()
