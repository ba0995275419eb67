"""Wrong builds that stand side by side in one must-fail edit, each in a function of its own: that the prover refuses each of them.

usage: python3 tests/wrongbuilds.py ROOT [CRATE..]     called by tests/wrongbuilds.sh

`rt ci` tries an edit and asks that the crate be refused; what it says of the other functions it doesn't keep. So each edit that has lines 'wrong: NAME in
FUNCTION' is made here in a copy of the crates, and the crate is checked there. A function is proved against the contracts of those that it calls,
whether these are proved or not, so each wrong function has an error of its own: a fact that was not proved, and not a name that is gone or a proof that
was refused because something else was.
The last line is 'wrongbuilds: N passed, M failed'.
"""

import concurrent.futures
import glob
import os
import re
import shutil
import subprocess
import sys
import tempfile

root = os.path.abspath(sys.argv[1])
asked = sys.argv[2:]
WRONG = re.compile(r"^wrong: (\S+) in (\S+)$", re.M)
# what says nothing of a fact: a name that is gone, or what was refused because something else was
NAMES = re.compile(r"has no `|has no field|is not in scope|was not admitted|was not checked|exports no")


def edited(text, folder):
    """The files that an edit changes, by their path in the crate's folder: the pairs of 'old' and 'new' lines, each 'old' standing once."""
    path, old, texts = None, None, {}
    for line in text.split("\n"):
        if line.startswith("file: "):
            path = line[6:].strip()
        elif line.startswith("old: "):
            old = line[5:]
        elif line.startswith("new:"):
            new = line[4:].removeprefix(" ")
            if path not in texts:
                with open(os.path.join(folder, path), encoding="utf-8") as f:
                    texts[path] = f.read()
            if texts[path].count(old) != 1:
                raise ValueError(f"{old} stands {texts[path].count(old)} times in {path}")
            texts[path] = texts[path].replace(old, new)
    return texts


def refused(log, crate, function):
    """Whether the check's log has an error of the function's own."""
    parts = function.split("::")
    places = ["/".join(["proofs", *parts[:-1], mark + parts[-1], ""]) for mark in ("", "+")]
    for line in log.split("\n"):
        if line.startswith(f"fn {crate}::{function}: no proof: ") and "did not prove" in line:
            return True
        if ": error" in line and any(f"./{p}" in line or line.startswith(p) for p in places) and not NAMES.search(line):
            return True
    return False


def tried(work):
    """Tries the edits of a crate in a copy of its own, and returns what passed and what to say."""
    crate, edits = work
    passed, said = 0, []
    with tempfile.TemporaryDirectory(prefix="wrongbuilds-") as room:
        shutil.copy(os.path.join(root, "crates.txt"), room)
        shutil.copytree(os.path.join(root, "crates"), os.path.join(room, "crates"), ignore=shutil.ignore_patterns("out"))
        # the libraries that `rt ci` has built: without them each copy would build those below anew
        for rlib in glob.glob(f"{root}/crates/*/out/rlib"):
            shutil.copytree(rlib, os.path.join(room, os.path.relpath(rlib, root)), copy_function=shutil.copy2)
        folder = os.path.join(room, "crates", crate)
        for edit in edits:
            with open(edit, encoding="utf-8") as f:
                text = f.read()
            log, why, was = "", "", {}
            try:
                texts = edited(text, folder)
                for path, new in texts.items():
                    at = os.path.join(folder, path)
                    with open(at, encoding="utf-8") as f:
                        was[at] = f.read()
                    with open(at, "w", encoding="utf-8") as f:
                        f.write(new)
                ran = subprocess.run(["rt", "check"], cwd=folder, stdin=subprocess.DEVNULL, stdout=subprocess.PIPE, stderr=subprocess.STDOUT, text=True, errors="replace", check=False)
                log = ran.stdout
                if "logic=not-proved" not in log:
                    why = f"the check ended otherwise: {log[-200:]}"
            except (OSError, ValueError) as error:
                why = str(error)
            for at, old in was.items():
                with open(at, "w", encoding="utf-8") as f:
                    f.write(old)
            for name, function in WRONG.findall(text):
                if not why and refused(log, crate, function):
                    passed += 1
                else:
                    said.append(f"FAILED: {crate} {name}: {why or 'no error of its own in ' + function}")
    return passed, said


works = {}
for edit in sorted(glob.glob(f"{root}/crates/*/must-fail/*.edit")):
    crate = edit.split("/")[-3]
    with open(edit, encoding="utf-8") as f:
        if WRONG.search(f.read()) and (not asked or crate in asked):
            works.setdefault(crate, []).append(edit)
passed, failed = 0, 0
with concurrent.futures.ThreadPoolExecutor(max_workers=max(1, (os.cpu_count() or 2) // 2)) as pool:
    for well, said in pool.map(tried, works.items()):
        passed, failed = passed + well, failed + len(said)
        for line in said:
            print(line)
print(f"wrongbuilds: {passed} passed, {failed} failed")
sys.exit(0 if failed == 0 and passed > 0 else 1)
