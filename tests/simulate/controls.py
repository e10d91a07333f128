"""Plants a defect in a copy of the tree, builds the program of lives at random of the copy without proofs, and lets it play.

A control is an edit that controls.txt names by crate and name: one of those that the prover has to refuse. What is found of it
shows what would be found if nothing were proved. `rt try` builds the program, and gives it ten minutes; it takes seconds where the
machine has nothing else to do.
"""
import pathlib
import re
import resource
import shutil
import subprocess
import tempfile
import time

HERE = pathlib.Path(__file__).resolve().parent
ROOT = HERE.parent.parent
SEEDS = 30
SECONDS = 600


def edits():
    """The paths of the controls' edits."""
    lines = (HERE / "controls.txt").read_text(encoding="utf-8").splitlines()
    return [ROOT / "crates" / crate / "must-fail" / f"{name}.edit" for crate, _, name in (line.partition("/") for line in lines)]


def planted(tree, control):
    """Applies the edit in the copy of the tree."""
    crate, path, old = tree / "crates" / control.parent.parent.name, None, ""
    for line in control.read_text(encoding="utf-8").splitlines():
        key, _, text = line.partition(": ")
        if key == "file":
            path = crate / text.strip()
        elif key == "old":
            old = text
        elif key == "new":
            source = path.read_text(encoding="utf-8")
            if source.count(old) != 1:
                raise SystemExit(f"{control.name}: its text is there {source.count(old)} times in {path.name}")
            path.write_text(source.replace(old, text), encoding="utf-8")


def copied(folder):
    """Copies the sources that git knows, as they stand, without what was built."""
    tree = pathlib.Path(folder, "tree")
    listed = subprocess.run(["git", "ls-files", "-z", "crates", "crates.txt", "HANDLES"], cwd=ROOT, capture_output=True, check=True)
    for name in listed.stdout.decode().split("\0"):
        if name and (ROOT / name).exists():
            (tree / name).parent.mkdir(parents=True, exist_ok=True)
            shutil.copy(ROOT / name, tree / name)
    subprocess.run(["git", "init", "-q", str(tree)], check=True)
    return tree


def processor_seconds():
    """Returns what the programs that have ended took of a processor."""
    used = resource.getrusage(resource.RUSAGE_CHILDREN)
    return used.ru_utime + used.ru_stime


def said_of(control):
    """Plants a control, if one is given, and plays. Returns what is said about it, and whether a difference was found."""
    with tempfile.TemporaryDirectory() as folder:
        tree = copied(folder)
        if control:
            planted(tree, control)
        begin, used = time.monotonic(), processor_seconds()
        command = ["rt", "try", "--seconds", str(SECONDS), "--", "0", str(SEEDS)]
        done = subprocess.run(command, cwd=tree / "crates/test_lives", stdout=subprocess.PIPE, stderr=subprocess.STDOUT, text=True, check=False)
        taken = f"{time.monotonic() - begin:.0f} seconds with the build, {processor_seconds() - used:.0f} of a processor"
    if found := re.search(r"^seed (\d+)\n((?:(?!checked: ).*\n){0,2})", done.stdout, re.M):
        return f"found by seed {found.group(1)}, {taken}: {' '.join(found.group(2).split())[:160]}", True
    if found := re.search(r"^lives .*$", done.stdout, re.M):
        return f"nothing found, {taken}: {found.group()}", False
    raise SystemExit(f"{control.stem if control else 'the tree'}: it doesn't play:\n{done.stdout[-2000:]}")


def find(names):
    """Looks for each control, and first for a difference in the tree as it is. The status."""
    chosen = [it for it in edits() if not names or it.stem in names]
    said, is_found = said_of(None)
    print(f"the tree as it is: {said}", flush=True)
    wrong = int(is_found)
    for control in chosen:
        said, is_found = said_of(control)
        wrong += not is_found
        print(f"{control.stem}: {said}", flush=True)
    return int(wrong > 0)
