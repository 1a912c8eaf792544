#!/usr/bin/env python3
"""Runs a command, unless it has passed on this machine before with the same files.

    kept.py NAME [--with TEXT] PATH .. -- COMMAND ..

A PATH is a file or a folder of the repository that the command reads. The records are in
~/.cache/concurrent_lru, or in $XDG_CACHE_HOME/concurrent_lru, by the name and by a checksum of the
files, the command, the text and the kit; without them, everything runs again. A command that prints
"left out:" of a part that cannot run on this machine is not recorded.
"""
import hashlib
import os
import pathlib
import subprocess
import sys

TOP = pathlib.Path(__file__).resolve().parent.parent
CACHES = pathlib.Path(os.environ.get("XDG_CACHE_HOME") or pathlib.Path.home() / ".cache")
RECORDS = CACHES / "concurrent_lru"
# what builds make, which git ignores too
MADE = {"out", "build", "target", "__pycache__", "Cargo.lock"}


def files_in(path):
    """The file itself, or the files of the folder, without what builds made."""
    if path.is_file():
        return [path]
    found = (it for it in path.rglob("*") if not MADE & set(it.relative_to(path).parts))
    return [it for it in found if it.is_file()]


def checksum(paths, *texts):
    """A checksum of the kit, of the names and contents of these files and folders, and of texts."""
    kit = subprocess.run(["rt", "version"], capture_output=True, check=True).stdout
    found = hashlib.sha256(kit + "\0".join(texts).encode())
    for path in sorted({file for path in paths for file in files_in(path)}):
        content = path.read_bytes()
        found.update(f"\0{path.relative_to(TOP)} {len(content)}\0".encode() + content)
    return found.hexdigest()


def run(command):
    """Runs a command. Returns its exit status, and whether what it printed says "left out:"."""
    has_left_out = False
    with subprocess.Popen(command, cwd=TOP, stdout=subprocess.PIPE) as running:
        for line in running.stdout:
            sys.stdout.buffer.write(line)
            sys.stdout.buffer.flush()
            has_left_out |= b"left out:" in line
    return running.returncode, has_left_out


def main():
    words = sys.argv[1:]
    if "--" not in words or words[0].startswith("-"):
        sys.exit(__doc__)
    at = words.index("--")
    name, paths, command = words[0], words[1:at], words[at + 1 :]
    text = ""
    if paths[:1] == ["--with"]:
        text, paths = paths[1], paths[2:]
    record = RECORDS / f"{name}-{checksum([TOP / it for it in paths], text, *command)}"
    if record.exists():
        print(f"{name}: passed on this machine before, with the same files")
        return 0
    status, has_left_out = run(command)
    if not status and not has_left_out:
        RECORDS.mkdir(parents=True, exist_ok=True)
        record.touch()
    return status


sys.exit(main())
