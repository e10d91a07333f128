"""Runs a program as its own, and with one of its requests for memory refused."""
import os
import pathlib
import subprocess

SOURCE = pathlib.Path(__file__).resolve().parent / "refuse.c"
SECONDS = 120


class Ended:
    """What a run printed, and how it ended: a negative status is a signal, and none a run that didn't end in time."""

    def __init__(self, status, lines, told):
        self.status = status
        self.lines = lines
        self.told = told


def built(folder):
    """The allocator that refuses, as a shared object in the folder."""
    library = os.path.join(folder, "refuse.so")
    subprocess.run(["cc", "-O2", "-Wall", "-shared", "-fPIC", "-o", library, str(SOURCE)], check=True)
    return library


def run(words, given, folder, more=None):
    """Runs the program with these words and this input in the folder."""
    environment = {"PATH": os.environ.get("PATH", ""), **(more or {})}
    try:
        ended = subprocess.run(words, input=given, cwd=folder, env=environment, capture_output=True, timeout=SECONDS, check=False)
    except subprocess.TimeoutExpired:
        return Ended(None, [], "")
    return Ended(ended.returncode, ended.stdout.decode().splitlines(), ended.stderr.decode())


def run_refusing(library, number, for_good, words, given, folder):
    """The same with the request of this number refused, and the later ones too where that is asked. None: it made fewer."""
    report = os.path.join(folder, "refused")
    environment = {"LD_PRELOAD": library, "REFUSE_FROM": str(number), "REFUSE_REPORT": report}
    if for_good:
        environment["REFUSE_ALL"] = "1"
    ended = run(words, given, folder, environment)
    if not os.path.exists(report):
        return None
    os.remove(report)
    return ended
