#!/usr/bin/env python3
"""try_edits.py [--jobs N] [EDIT..]: applies each of these must-fail edits, or of all in crates/*/must-fail,
to a copy of its crate, which `rt check` must then refuse.

The crates are first proved as they stand, on one copy of the repository, so that what is saved meanwhile does not reach
the edits; each edit's check begins with the work that was kept there, N of them at a time (as many as there are
processors, but no more than four, if N is left out). What a check said stands afterwards in
target/edits/CRATE/EDIT.log, and in target/edits/CRATE/check.log what it said of the crate as it stands.

A line for each edit, with the seconds that it took and, where there is more to say, the first error:
    refused            the crate is not proved with it
    NOT REFUSED        the crate is still proved with it
    BAD EDIT           it does not fit the code or a definition, does not compile, or the prover cannot read what it wrote
    A NAME IS MISSING  it is refused only because proof files name what it took away: that says nothing of a contract
    REFUSED ONLY BY A LIMIT  the prover gave up: that says nothing of it either
`rt must-fail` judges the edits in the same way, but for the last two kinds, which it lets pass. The last line is 'N passed, M failed'; the exit status is 0 where all were refused, 1 where one was not, 2 where
they cannot be tried."""

import argparse
import fcntl
import functools
import glob
import hashlib
import os
import queue
import re
import shutil
import subprocess
import sys
import tempfile
import time
from concurrent.futures import ThreadPoolExecutor

TOP = os.path.dirname(os.path.dirname(os.path.realpath(__file__)))
PARTS = ("src", "specs", "proofs")
ALL = "crates/*/must-fail/*.edit"


def stop(why):
    print(f"edits: {why}", file=sys.stderr)
    print("0 passed, 1 failed")
    sys.exit(2)


@functools.lru_cache(maxsize=None)
def listed():
    """Returns the lines of crates.txt, by the names of their crates."""
    lines = [it.partition("#")[0].strip() for it in open(f"{TOP}/crates.txt", encoding="utf-8")]
    return {it.partition(":")[0].split()[0]: it for it in lines if it}


def libraries():
    """Returns the crates of the repository, each with those that it stands on directly."""
    lines = listed()
    return {name: [it for it in line.partition(":")[2].split() if it in lines] for name, line in lines.items()}


def below(name, deps):
    return {name}.union(*(below(it, deps) for it in deps[name]))


def listing(names):
    """Returns a crates.txt of these crates alone: rt wants a folder for each crate that it names."""
    return "".join(f"{line}\n" for name, line in listed().items() if name in names)


def room_for(crate, names, base, room):
    """Makes a repository of these crates at room. What was kept of them is not copied, but gets a second name: a check
    replaces such a file, and changes none."""

    def copy(one, other):
        if one.endswith(".oantt") or "/out/rlib/" in one:
            try:
                return os.link(one, other)
            except OSError:
                pass
        return shutil.copy2(one, other)

    shutil.rmtree(room, ignore_errors=True)
    os.makedirs(f"{room}/crates")
    with open(f"{room}/crates.txt", "w", encoding="utf-8") as it:
        it.write(listing(names))
    for name in names:
        left_out = None if name == crate else shutil.ignore_patterns("incremental")
        shutil.copytree(f"{base}/crates/{name}", f"{room}/crates/{name}", copy_function=copy, ignore=left_out)


def apply(edit, folder):
    """Applies an edit of code or definitions as rt does, and returns the files that it changed, or says why it does not fit."""
    path, old, texts, was = "", "", {}, {}
    for line in open(edit, encoding="utf-8").read().split("\n"):
        if line.startswith("file: "):
            path = line[len("file: ") :].strip()
            if os.path.normpath(path) != path or not path.startswith(("src/", "specs/")):
                return None, f"{path} is no file below src/ or specs/"
        elif line.startswith("old: "):
            old = line[len("old: ") :]
        elif line.startswith("new:"):
            new = line[len("new:") :]
            new = new[1:] if new.startswith(" ") else new
            if not path or not old:
                return None, "a 'new:' line has no 'file:' line, or no 'old:' line of its own, before it"
            if path not in texts:
                if not os.path.isfile(f"{folder}/{path}"):
                    return None, f"there is no file {path}"
                texts[path] = was[path] = open(f"{folder}/{path}", encoding="utf-8").read()
            found = texts[path].count(old)
            if found != 1:
                return None, f"this stands in {path} {found} times, and not once: {old}"
            texts[path], old = texts[path].replace(old, new), ""
    if texts == was:
        return None, "it changes nothing"
    for path, text in texts.items():
        with open(f"{folder}/{path}", "w", encoding="utf-8") as it:
            it.write(text)
    return set(texts), None


def unread(line, changed):
    """Returns whether the prover could not read a text: an edit that only makes a statement false reads well."""
    at = re.match(r"(?:\./)?(\S+?):\d+:\d+: error: (?:(`[^`]*`): )?(.*)", line)
    if not at or at[1] not in changed and not at[1].startswith(("src/", "specs/")):
        return False
    said = re.sub(r"`[^`]*`", "", at[3])
    unknown = r"is not in scope|has no field|is no name|operand is missing|expected the end|cannot continue"
    return not at[2] or bool(re.search(unknown, said))


LIMITS = r"antt ran out of (stack|the (steps|memory) that the check of)|(outgrew the memory limit|stopped at the step limit) \("
NAMES = r"(note: )?(\./)?proofs/.*(has no field|is not in scope|has no `|was not admitted|was rejected, (was|were) not checked)"


def judged(status, said, changed, log):
    """Returns whether the edit is refused, what it came to, and why."""
    lines = said.rstrip("\n").split("\n")
    told = [it for it in lines if re.match(r"(note: )?\S+:\d+:\d+:", it)]
    told = [it for it in told if ": error" in it or it.startswith("note: ")] or told
    bad = next((it for it in lines if unread(it, changed)), "")
    if status == 1 and bad:
        return False, "BAD EDIT: the prover cannot read it", bad
    if status == 1 and any(it.startswith("logic=not-proved") for it in lines):
        first = next((it for it in told if not re.match(NAMES, it)), "")
        if told and not first:
            return False, "A NAME IS MISSING", told[0]
        return True, "refused", first
    if status == 0:
        return False, "NOT REFUSED: the crate is still proved with this edit", ""
    limit = next((it for it in lines if re.search(LIMITS, it)), "")
    if status == 3 and limit:
        return False, "REFUSED ONLY BY A LIMIT of the prover", limit
    why = next((it for it in lines if re.search(r"\berror\[[\w-]+\]", it)), log)
    return False, f"BAD EDIT: it did not reach the prover (exit {status})", why


def check(folder, log, *flags):
    """Runs rt check in a crate's folder, and returns its status and what it said."""
    how = {"cwd": folder, "stdin": subprocess.DEVNULL, "stdout": subprocess.PIPE, "stderr": subprocess.STDOUT}
    ran = subprocess.run(["rt", "check", *flags], **how)
    said = ran.stdout.decode(errors="replace")
    with open(log, "w", encoding="utf-8") as it:
        it.write(said)
    return ran.returncode, said


def main():
    most = min(len(os.sched_getaffinity(0)), 4)
    words = argparse.ArgumentParser(description=__doc__, formatter_class=argparse.RawDescriptionHelpFormatter)
    words.add_argument("--jobs", type=int, default=most, metavar="N")
    words.add_argument("edits", nargs="*", metavar="EDIT")
    given = words.parse_args()
    if not shutil.which("rt"):
        stop("the Rattle toolchain is needed: its command 'rt' is not on the path")

    deps, edits = libraries(), []
    for it in given.edits:
        inside = os.path.relpath(os.path.realpath(it), TOP)
        if not os.path.isfile(it) or not re.fullmatch(r"crates/\w+/must-fail/(.+/)?[\w.-]+\.edit", inside):
            stop(f"there is no edit {it}")
        edits.append(inside)
    edits = edits or sorted(os.path.relpath(it, TOP) for it in glob.glob(f"{glob.escape(TOP)}/{ALL}"))
    if not edits:
        stop(f"there is no edit {ALL}")
    crate_of = lambda edit: edit.split("/")[1]
    unlisted = [it for it in edits if crate_of(it) not in deps]
    if unlisted:
        stop(f"crates.txt lists no crate {crate_of(unlisted[0])}")
    # (lowest first)
    crates = sorted({crate_of(it) for it in edits}, key=lambda it: len(below(it, deps)))

    # Rooms of one name for each checkout, since rt notes the folders in which a check kept work.
    rooms = f"{tempfile.gettempdir()}/try-edits-{os.getuid()}-{hashlib.sha256(TOP.encode()).hexdigest()[:12]}"
    os.makedirs(f"{TOP}/target/edits", exist_ok=True)
    with open(f"{TOP}/target/edits/lock", "w") as lock:
        try:
            fcntl.flock(lock, fcntl.LOCK_EX | fcntl.LOCK_NB)
        except BlockingIOError:
            print("edits: another run in this checkout tries edits; waiting for it", flush=True)
            fcntl.flock(lock, fcntl.LOCK_EX)
        shutil.rmtree(rooms, ignore_errors=True)
        try:
            return tried(edits, crates, crate_of, deps, rooms, given.jobs)
        finally:
            shutil.rmtree(rooms, ignore_errors=True)


def tried(edits, crates, crate_of, deps, rooms, jobs):
    base, logs = f"{rooms}/base", f"{TOP}/target/edits"
    needed = sorted({it for crate in crates for it in below(crate, deps)})
    for name in needed:
        for part in PARTS:
            if os.path.isdir(f"{TOP}/crates/{name}/{part}"):
                shutil.copytree(f"{TOP}/crates/{name}/{part}", f"{base}/crates/{name}/{part}")
    for edit in edits:
        os.makedirs(f"{rooms}/edits/{crate_of(edit)}", exist_ok=True)
        shutil.copy2(f"{TOP}/{edit}", f"{rooms}/edits/{crate_of(edit)}")
    with open(f"{base}/crates.txt", "w", encoding="utf-8") as it:
        it.write(listing(needed))

    unproved = set()
    for crate in crates:
        os.makedirs(f"{logs}/{crate}", exist_ok=True)
        if check(f"{base}/crates/{crate}", f"{logs}/{crate}/check.log")[0]:
            unproved.add(crate)
            why = f"{crate} is not proved as it stands, so its edits are not tried: target/edits/{crate}/check.log"
            print(f"edits: {why}", file=sys.stderr, flush=True)

    slots = queue.Queue()
    for it in range(max(1, jobs)):
        slots.put(it)

    def one(edit):
        crate, name = crate_of(edit), os.path.basename(edit)[: -len(".edit")]
        log = f"{logs}/{crate}/{name}.log"
        if os.path.lexists(log):
            os.remove(log)
        slot, began = slots.get(), time.monotonic()
        try:
            room = f"{rooms}/{slot}"
            room_for(crate, below(crate, deps), base, room)
            changed, why = apply(f"{rooms}/edits/{crate}/{name}.edit", f"{room}/crates/{crate}")
            is_refused, what = False, f"BAD EDIT: it does not fit the code and definitions of {crate}"
            if changed:
                status, said = check(f"{room}/crates/{crate}", log, "--jobs", "1")
                is_refused, what, why = judged(status, said, changed, os.path.relpath(log, TOP))
        finally:
            slots.put(slot)
        print(f"edits: {crate}/{name}: {what} ({time.monotonic() - began:.0f} s){': ' * bool(why)}{why}"[:400], flush=True)
        return is_refused

    with ThreadPoolExecutor(max(1, jobs)) as pool:
        passed = sum(pool.map(one, [it for it in edits if crate_of(it) not in unproved]))
    print(f"{passed} passed, {len(edits) - passed} failed")
    return 2 if unproved else 0 if passed == len(edits) else 1


if __name__ == "__main__":
    sys.exit(main())
