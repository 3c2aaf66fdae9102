"""Has the prover refuse wrong versions, for tools/facts and ./wrong: by `rt check --allow-holes`, each in a copy of the crates outside of the checkout, over what the crate's own check has left.

Versions of one file, or of one crate, that differ in the bodies of different functions are tried together; where nothing is refused in a version's function, as where the prover does not come
to it since a function that it calls has no proof left, that version is tried once more by itself. A version counts as refused only where its fact is the first that is refused for itself (tools/versions.py), and, where functions'
bodies differ, nothing of any other function is: the rest of the crate must pass. So many checks run at a time as JOBS says, else two, or one where there is one processor.
"""
import concurrent.futures
import os
import queue
import re
import shutil
import subprocess
import sys
import time

import versions

ROOT = versions.ROOT
PARTS = ("src", "specs", "proofs")


def jobs():
    """How many checks run at a time."""
    return int(os.environ.get("JOBS") or min(2, len(os.sched_getaffinity(0))))


def said_by(words, folder):
    """What a command says, and its status."""
    done = subprocess.run(words, cwd=folder, stdin=subprocess.DEVNULL, stdout=subprocess.PIPE, stderr=subprocess.STDOUT, check=False)
    return done.stdout.decode(errors="replace"), done.returncode


def below(crate):
    """The crates of the repository that a crate rests on."""
    lines = versions.imports()
    found = []
    for name in lines[crate].split(":")[1].split():
        found += [each for each in [*(below(name) if name in lines else []), name] if each in lines and each not in found]
    return found


def proved(crates):
    """Proves the crates and those below them, over what is kept in out/. Nothing where all are, else what the prover said."""
    for crate in versions.imports():
        if any(crate == name or crate in below(name) for name in crates):
            said, status = said_by(["rt", "check"], f"{ROOT}/crates/{crate}")
            if status != 0 or not re.search("^logic=proved ", said, re.M):
                return f"{crate} with no edit is not proved:\n{said[-3000:]}"
    return ""


def linked(folder, to):
    """Copies a folder of what a check has left, as `rt` copies it: the checked modules and the files of a library by links where there can be any, since a check puts a new file in such a
    one's place and changes none."""

    def copy(one, other):
        try:
            if one.endswith(".oantt") or "/rlib/" in one:
                return os.link(one, other)
        except OSError:
            pass
        return shutil.copy2(one, other)

    shutil.rmtree(to, ignore_errors=True)
    shutil.copytree(folder, to, copy_function=copy)


def as_left(folder):
    """What tells whether a file of a folder was changed, lost or added."""
    paths = [f"{at}/{name}" for at, _, names in os.walk(folder) for name in names]
    return {path: (found.st_ino, found.st_size, found.st_mtime_ns) for path in paths for found in [os.lstat(path)]}


class Rooms:
    """Copies of the crates, to edit in, one for each check at a time; and beside them, once, what the crates' own checks have left."""

    def __init__(self, scratch, crates, said):
        self.scratch, self.kept_said, self.free = scratch, said, queue.Queue()
        for crate in dict.fromkeys(each for name in crates for each in [*below(name), name]):
            for part in ("rlib", "incremental"):
                left = f"{ROOT}/crates/{crate}/out/{part}"
                if os.path.isdir(left) and (part == "rlib" or crate in crates):
                    linked(left, f"{scratch}/left/{crate}/{part}")
        self.left = as_left(f"{scratch}/left")
        for number in range(jobs()):
            self.free.put(self.made(f"{scratch}/room-{number}"))

    def made(self, home):
        for crate in versions.imports():
            for part in PARTS:
                if os.path.isdir(f"{ROOT}/crates/{crate}/{part}"):
                    shutil.copytree(f"{ROOT}/crates/{crate}/{part}", f"{home}/crates/{crate}/{part}")
            if os.path.isdir(f"{self.scratch}/left/{crate}/rlib"):
                linked(f"{self.scratch}/left/{crate}/rlib", f"{home}/crates/{crate}/out/rlib")
        for name in ("crates.txt", "HANDLES"):
            if os.path.isfile(f"{ROOT}/{name}"):
                shutil.copy2(f"{ROOT}/{name}", home)
        return home

    def check(self, check):
        """Applies the versions in a room, checks, and puts the room back as it was. Gives those that could not be applied, what the prover said, and its status."""
        crate, home = check[0].crate, self.free.get()
        made = []
        try:
            made += [versions.applied(one, f"{home}/crates") for one in check]
            linked(f"{self.scratch}/left/{crate}/incremental", f"{home}/crates/{crate}/out/incremental")
            said, status = said_by(["rt", "check", "--jobs", "1", "--allow-holes"], f"{home}/crates/{crate}")
        finally:
            for held, _ in reversed(made):
                for path, text in held.items():
                    versions.write(path, text)
            self.free.put(home)
        for one in check:
            versions.write(f"{self.kept_said}/{one.crate}/{one.label}", said)
        return [one for one, (_, good) in zip(check, made) if not good], said, status


def verdict(one, check, bad, said, status, log):
    """What came of one version of a check."""
    others = sorted(versions.beside(said, check))
    if bad:
        which = "its" if one in bad else f"{bad[0].label}'s"
        return f"BAD EDIT: {which} old text does not stand there exactly once"
    if status == 0:
        return "NOT REFUSED"
    if status != 1 or not re.search("^holes=0$", said, re.M):
        return f"NOT TRIED: see {log}"
    if others:
        return f"NOT TRIED: {', '.join(others)} was refused too, where no version differs: see {log}"
    first = versions.first_refused(said, one)
    if first != versions.Refused(one.where, one.fact, False):
        what = "nothing there is refused for itself" if first is None else f"the first that is refused is `{first.fact}` of {first.where}" + ", since a name is not there" * first.only_names
        return f"NOT REFUSED by its fact: {what}: see {log}"
    return "refused, as it must be"


def one_try(rooms, check):
    """Tries a check's versions together, and by itself each that is not shown so. Gives a line for each, and which are refused."""
    began = time.monotonic()
    bad, said, status = rooms.check(check)
    found = {}
    for one in check:
        log = os.path.relpath(f"{rooms.kept_said}/{one.crate}/{one.label}", ROOT)
        found[one] = verdict(one, check, bad, said, status, log)
        if len(check) > 1 and status == 1 and not bad and versions.first_refused(said, one) is None:
            alone, said_alone, status_alone = rooms.check([one])
            found[one] = verdict(one, [one], alone, said_alone, status_alone, log)
    took = f"{time.monotonic() - began:.0f} s" + (f" with {len(check) - 1} more" if len(check) > 1 else "")
    for one, line in found.items():
        print(f"{one.crate}/{one.label}: {line} (`{one.fact}` of {one.where}; {took})", flush=True)
    return found


def tried(checks, said):
    """Tries the checks, each a list of versions of one crate. Gives what came of each version, and what the prover said in the folder `said`."""
    scratch, status = said_by(["tools/scratch"], ROOT)
    if status != 0:
        sys.exit(f"there is no room for files: {scratch}")
    scratch = scratch.strip()
    shutil.rmtree(said, ignore_errors=True)
    try:
        rooms = Rooms(scratch, list(dict.fromkeys(check[0].crate for check in checks)), said)
        with concurrent.futures.ThreadPoolExecutor(jobs()) as hands:
            found = list(hands.map(lambda check: one_try(rooms, check), checks))
        if as_left(f"{scratch}/left") != rooms.left:
            sys.exit("what the crates' own checks have left was changed while the versions were tried over it: nothing of this counts; try again")
    finally:
        shutil.rmtree(scratch)
    return {one: line for each in found for one, line in each.items()}
