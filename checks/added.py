"""Copies of the repository to which crates of checks/ are added.

The gate proves each crate of crates.txt. Tests, and programs that only checks run, aren't worth a proof at each merge:
they stand below checks/, and added.txt lists them in the form of crates.txt. The gate refuses .rt and .antt files
outside the crates of crates.txt, so their code ends in .rs here and their proofs in .proof, and a copy renames them.
"""

import hashlib
import os
import shutil
import subprocess
import sys

ROOT = os.path.dirname(os.path.dirname(os.path.abspath(__file__)))
FOLDERS = {"tests": "checks/tests", "refusals": "checks/tests/refusals", "bench": "checks/bench"}
PARTS = ["src", "specs", "proofs"]
ENDINGS = {".rs": ".rt", ".proof": ".antt"}

# The programs, with words for which each ends with status 0 at once.
SHORT_RUNS = {"refusals": [], "bench": ["image", "3", "1"]}


def renamed(source, target):
    """Copies a file under the name that it has in a crate."""
    name, ending = os.path.splitext(target)
    return shutil.copy2(source, name + ENDINGS.get(ending, ending))


def copy_parts(source, target, copy):
    """Makes the parts of a crate those of another folder. What runs left in the crate's out/ stays."""
    for part in PARTS:
        shutil.rmtree(os.path.join(target, part), ignore_errors=True)
        if os.path.isdir(os.path.join(source, part)):
            shutil.copytree(os.path.join(source, part), os.path.join(target, part), copy_function=copy)


def write_list(folder):
    """Writes the copy's crates.txt."""
    with open(os.path.join(folder, "crates.txt"), "wb") as file:
        for listed in ("crates.txt", "checks/added.txt"):
            with open(os.path.join(ROOT, listed), "rb") as lines:
                shutil.copyfileobj(lines, file)


def copy_to(folder):
    """Makes a folder a copy of the crates of the repository and of those of checks/."""
    crates = os.path.join(folder, "crates")
    for name in os.listdir(os.path.join(ROOT, "crates")):
        copy_parts(os.path.join(ROOT, "crates", name), os.path.join(crates, name), shutil.copy2)
    for name, added in FOLDERS.items():
        copy_parts(os.path.join(ROOT, added), os.path.join(crates, name), renamed)
    shutil.copy2(os.path.join(ROOT, "HANDLES"), folder)
    write_list(folder)


def kept_copy():
    """The folder of the copy that is kept between runs. In the repository the gate would refuse its files."""
    cache = os.environ.get("XDG_CACHE_HOME") or os.path.expanduser("~/.cache")
    return os.path.join(cache, "valdzoki-" + hashlib.sha256(ROOT.encode()).hexdigest()[:12])


def built(name):
    """Proves and builds a program of checks/ in the kept copy, where it changed. Returns its path."""
    folder = kept_copy()
    copy_to(folder)
    crate = os.path.join(folder, "crates", name)
    print(f"proving and building {name} in {crate}: this takes a while if it changed", file=sys.stderr, flush=True)
    done = subprocess.run(["rt", "run", "--", *SHORT_RUNS[name]], cwd=crate, stdin=subprocess.DEVNULL,
                          stdout=subprocess.DEVNULL, check=False)
    if done.returncode != 0:
        raise SystemExit(f"{name} can't be built: rt run ended with status {done.returncode} in {crate}")
    return os.path.join(crate, "out", name)
