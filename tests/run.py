#!/usr/bin/env python3
"""Tries ./run with a program in the place of `admit` and nothing to prove: what it prints and how it ends.

    tests/run.py PROGRAM [ARGUMENT ..]

PROGRAM reads table.txt and orders.txt of the current folder, as `admit` does."""
import os
import shutil
import subprocess
import sys
import tempfile
from pathlib import Path

ROOT = Path(__file__).resolve().parent.parent
TABLE = b"   1   1   2   100 1    370     2000\n"


def script(path, text):
    path.parent.mkdir(parents=True, exist_ok=True)
    path.write_text(f"#!/bin/sh\n{text}\n")
    path.chmod(0o755)


def run(root, *arguments):
    environment = dict(os.environ, PATH=f"{root / 'kit'}:{os.environ['PATH']}")
    return subprocess.run([root / "run", *arguments], env=environment, stdin=subprocess.DEVNULL, capture_output=True, timeout=60)


def expect(name, done, code, printed):
    if done.returncode != code:
        sys.exit(f"run: {name}: ended with {done.returncode}, not {code}: {done.stderr.decode()}")
    if done.stdout != printed:
        sys.exit(f"run: {name}: printed {done.stdout!r}")


def try_all(root, command):
    shutil.copy(ROOT / "run", root / "run")
    (root / "tools").mkdir()
    shutil.copy(ROOT / "tools" / "build", root / "tools" / "build")
    script(root / "kit" / "rt", "exit 0")
    script(root / "crates" / "admit" / "out" / "admit", f"exec {command}")
    for example in [ROOT / "examples", ROOT / "examples" / "hall"]:
        expect(example.name, run(root, example), 0, (example / "printed.txt").read_bytes())
    shutil.copytree(ROOT / "examples", root / "examples")
    expect("no folder named", run(root), 0, (ROOT / "examples" / "printed.txt").read_bytes())
    cases = {
        "refused": ({"table.txt": TABLE[:-1]}, 1, b"  1     1\n"),
        "nothing": ({}, 0, b""),
        "one order": ({"table.txt": TABLE, "orders.txt": b" 2     7\n"}, 0, b"     1 13   0   0 0\n"),
    }
    for name, (files, code, printed) in cases.items():
        (root / name).mkdir()
        for file, content in files.items():
            (root / name / file).write_bytes(content)
        expect(name, run(root, root / name), code, printed)
    missing = run(root, root / "nowhere")
    expect("a folder that isn't there", missing, 1, b"")
    helped = run(root, "--help")
    expect("help", helped, 0, helped.stdout)
    if b"usage: ./run" not in helped.stdout or b"is no folder" not in missing.stderr:
        sys.exit("run: words are missing")
    for arguments in [["--nothing"], ["a", "b"]]:
        expect("usage", run(root, *arguments), 2, b"")
    script(root / "crates" / "admit" / "out" / "admit", "exit 7")
    expect("a program that fails", run(root, ROOT / "examples"), 7, b"")


def main(arguments):
    if not arguments:
        sys.exit("usage: tests/run.py PROGRAM [ARGUMENT ..]")
    command = " ".join([str(Path(arguments[0]).resolve()), *arguments[1:]])
    root = Path(tempfile.mkdtemp(prefix="run-"))
    try:
        try_all(root, command)
    finally:
        shutil.rmtree(root)
    print("run: passed")


main(sys.argv[1:])
