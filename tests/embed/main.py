"""Embeds the store in an empty folder and in a repository that is there, and runs the first program twice: it counts on.

usage: python3 tests/embed/main.py [--proved]     with --proved by `rt run`, which proves all crates first; else by `rt try`

Its last line says how long it took from nothing to the first answer.
"""
import argparse
import pathlib
import shutil
import subprocess
import tempfile
import time

TOP = pathlib.Path(__file__).resolve().parent.parent.parent


def embed(folder):
    """What ./embed says of the folder."""
    return subprocess.run([TOP / "embed", folder], check=True, capture_output=True, text=True).stdout


def answer(app, command):
    """What the program prints."""
    ended = subprocess.run(["rt", command], cwd=app, capture_output=True, text=True, check=False)
    assert ended.returncode == 0, ended.stdout[-2000:] + ended.stderr[-2000:]
    return ended.stdout


def into_another(folder):
    """A repository that has crates of its own keeps them, and gets the lines that it lacks."""
    (folder / "crates/mine/src").mkdir(parents=True)
    (folder / "crates/mine/src/main.rt").write_text("mine\n")
    (folder / "crates.txt").write_text("mine: anyhow store\nbase:")
    (folder / "HANDLES").write_text("Handles allowed: none.\n")
    said = embed(folder)
    assert "HANDLES has to allow Threads and Wait" in said, said
    listed = (folder / "crates.txt").read_text()
    assert listed.startswith("mine: anyhow store\nbase:\n") and listed.count("base:\n") == 1, listed
    assert all(listed.count(it) == 1 for it in ("\npmem: base\n", "\nstore: ")) and "app:" not in listed, listed
    assert (folder / "crates/mine/src/main.rt").read_text() == "mine\n"
    (folder / "crates/store/src/old.rt").write_text("old\n")
    again = embed(folder)
    assert "crates.txt:\nnothing\n" in again, again
    assert (folder / "crates.txt").read_text() == listed and not (folder / "crates/store/src/old.rt").exists()
    assert not list(folder.glob("crates/*/must-fail")), "must-fail edits were copied"


def main():
    parser = argparse.ArgumentParser(description="Tests ./embed: the store in an empty folder, and next to crates that are there.")
    parser.add_argument("--proved", action="store_true", help="prove all crates, and run the program that is built then")
    command = "run" if parser.parse_args().proved else "try"
    folder = pathlib.Path(tempfile.mkdtemp())
    try:
        into_another(folder / "another")
        print("a repository with crates of its own keeps them, and a second ./embed adds nothing")
        start = time.monotonic()
        embed(folder / "new")
        app = folder / "new/crates/app"
        said = answer(app, command)
        took = time.monotonic() - start
        assert "run 1\n" in said, said
        again = answer(app, command)
        assert "run 2\n" in again and (folder / "new/app.img").exists(), again
        print(f"from nothing to the answer of rt {command}: {took:.0f} seconds")
    finally:
        shutil.rmtree(folder)


if __name__ == "__main__":
    main()
