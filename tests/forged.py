#!/usr/bin/env python3
"""Wrong definitions that their own crate takes, and that a crate above refuses: each edit of tests/forged is applied to a copy of the crates,
in which the edited crate must be proved and the crate that the edit names must not, because a fact fails. The must-fail edits of `rt ci` are
tried in their own crate only. The last line is `N passed, M failed`; the exit status is 1 if anything failed.
usage: tests/forged.py [LABEL ..]"""
import concurrent.futures
import glob
import os
import re
import shutil
import subprocess
import sys
import tempfile

os.chdir(os.path.join(os.path.dirname(os.path.abspath(__file__)), ".."))


def text(path):
    with open(path, encoding="utf-8") as opened:
        return opened.read()


needs = {name: rest.split() for name, rest in re.findall(r"^(\w+)(?: staticlib)?:(.*)$", re.sub(r"#.*", "", text("crates.txt")), re.M)}
# An error that speaks only of a name that is not there, or of what cites a proof that fell.
OF_NAMES = re.compile(r"has no field|has no `|is not in scope|is no name|was not admitted|was rejected, w")


def below(crate, seen):
    """The crate and all that it stands on, the lowest first."""
    for name in needs[crate]:
        if name in needs and name not in seen:
            below(name, seen)
    if crate not in seen:
        seen.append(crate)
    return seen


def check(top, name):
    """Checks a crate of a repository: the exit status, and what was said. rt begins with what checks elsewhere kept of the same files."""
    ran = subprocess.run(["rt", "check", "--jobs", "1"], cwd=f"{top}/crates/{name}", capture_output=True, text=True, check=False)
    return ran.returncode, ran.stdout


def tried(path):
    """What is wrong with an edit, nothing if it is refused as it says."""
    edit = text(path)
    crate = re.search(r"^refused by: (\w+)$", edit, re.M)
    parts = re.findall(r"^file: (\S+)$|^old: (.*)\nnew: ?(.*)$", edit, re.M)
    if not crate or crate[1] not in needs or not any(old for _, old, _ in parts):
        return "no edit, or no crate that refuses it"
    crates = below(crate[1], [])
    with tempfile.TemporaryDirectory() as top:
        for name in crates:
            for part in ("src", "specs", "proofs"):
                if os.path.isdir(f"crates/{name}/{part}"):
                    shutil.copytree(f"crates/{name}/{part}", f"{top}/crates/{name}/{part}")
        with open(f"{top}/crates.txt", "w", encoding="utf-8") as out:
            out.write("".join(f"{name}: {' '.join(needs[name])}\n" for name in crates))
        file = ""
        for named, old, new in parts:
            if named:
                file = named
                continue
            whole = text(f"{top}/{file}")
            if whole.count(old) != 1:
                return f"an old text is in {file} {whole.count(old)} times"
            with open(f"{top}/{file}", "w", encoding="utf-8") as out:
                out.write(whole.replace(old, new))
        edited = {named.split("/")[1] for named, _, _ in parts if named}
        for name in crates[:-1]:
            if edited & set(below(name, [])) and check(top, name)[0] != 0:
                return f"{name} itself is not proved with it: a must-fail edit of that crate would do" if name in edited else f"{name} refuses it already"
        status, said = check(top, crate[1])
        errors = re.findall(r"^(?:\./)?(\S+:\d+:\d+): error: (.*)", said, re.M)
        facts = [place for place, why in errors if not OF_NAMES.search(why)]
        if status != 1 or not said.rstrip().split("\n")[-1].startswith("logic=not-proved"):
            return f"{crate[1]} does not refuse it (exit status {status})"
        if not facts or not all(place.startswith("proofs/") for place, _ in errors):
            return f"{crate[1]} refuses it not for a fact, but for what it cannot read: {errors[:1]}"
        print(f"{os.path.basename(path)[:-5]}: refused, as it must be (first at crates/{crate[1]}/{facts[0]})", flush=True)
    return ""


def main():
    wanted = sys.argv[1:]
    if any(word.startswith("-") for word in wanted):
        sys.exit(__doc__)
    edits = sorted(p for p in glob.glob("tests/forged/*.edit") if not wanted or os.path.basename(p)[:-5] in wanted)
    names = sorted({m for p in edits for m in re.findall(r"^refused by: (\w+)$", text(p), re.M)})
    if not edits or any(check(".", name)[0] != 0 for name in names):
        sys.exit("no such edit" if not edits else "the crates themselves are not proved")
    failed = 0
    with concurrent.futures.ThreadPoolExecutor(max_workers=min(4, os.cpu_count() or 1)) as pool:
        for path, wrong in zip(edits, pool.map(tried, edits)):
            if wrong:
                failed += 1
                print(f"failed: {path}: {wrong}", flush=True)
    print(f"{len(edits) - failed} passed, {failed} failed")
    sys.exit(failed != 0)


main()
