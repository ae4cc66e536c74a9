"""Copies of the repository that have other limits, each in a folder of its own that is kept."""
from __future__ import annotations

import os
import re
import shutil
import subprocess
from collections.abc import Iterable

from changes import crates_by_level
from limits import SOURCE, read_limits, with_limits


def _bring_up_to_date(source: str, path: str, content: bytes) -> None:
    """Writes a file of a copy, unless it has this content already: its time tells whether a proof is older."""
    if os.path.exists(path):
        with open(path, "rb") as file:
            if file.read() == content:
                return
    os.makedirs(os.path.dirname(path), exist_ok=True)
    with open(path, "wb") as file:
        file.write(content)
    shutil.copymode(source, path)


def _files_of(root: str) -> list[str]:
    """The files of a checkout, new ones too, without what is built."""
    words = ["git", "ls-files", "-z", "--cached", "--others", "--exclude-standard"]
    listed = subprocess.run(words, cwd=root, stdout=subprocess.PIPE, text=True)
    if listed.returncode:
        raise OSError(f"{root}: git does not list its files")
    return [path for path in listed.stdout.split("\0") if "/out/" not in path and os.path.isfile(f"{root}/{path}")]


def _remove_others(folder: str, paths: list[str]) -> None:
    """Removes the files of a copy that the checkout doesn't have, but nothing that was built."""
    kept = set(paths)
    for parent, folders, names in os.walk(folder):
        folders[:] = [name for name in folders if name != "out"]
        for name in names:
            if os.path.relpath(f"{parent}/{name}", folder) not in kept:
                os.remove(f"{parent}/{name}")


def _take_over_proofs(root: str, crates: Iterable[str], folder: str) -> None:
    """What is proved of these crates here, for those of which nothing is proved in the copy."""
    for crate in crates:
        here, there = f"{root}/crates/{crate}/out", f"{folder}/crates/{crate}/out"
        if os.path.isdir(here) and not os.path.exists(there):
            shutil.rmtree(f"{there}.part", ignore_errors=True)
            shutil.copytree(here, f"{there}.part", symlinks=True)
            os.rename(f"{there}.part", there)


def copy_for(path: str, root: str, *programs: str) -> str:
    """The folder of a copy of the repository that has the limits of a file, brought up to date with both. What is proved there stays, so a later build
    of these programs proves the difference alone."""
    name = os.path.splitext(os.path.basename(path))[0]
    if not re.fullmatch(r"[A-Za-z0-9_-]+", name):
        raise ValueError(f"{path}: the name of the file names the limits, and has letters, digits, _ and - alone before its ending")
    crates = crates_by_level(root, *programs)
    limits = read_limits(path, root, crates)
    cache = os.environ.get("XDG_CACHE_HOME") or os.path.expanduser("~/.cache")
    folder = f"{cache}/fannulavo/limits/{name}"
    paths = _files_of(root)
    for each in paths:
        with open(f"{root}/{each}", "rb") as file:
            content = file.read()
        if each == SOURCE:
            content = with_limits(content.decode(), limits, name).encode()
        _bring_up_to_date(f"{root}/{each}", f"{folder}/{each}", content)
    _remove_others(folder, paths)
    _take_over_proofs(root, crates, folder)
    return folder
