"""What README.md shows of bin/kv, pasted into a shell, prints what is there."""
import os
import subprocess

from store import Lost

README = os.path.join(os.path.dirname(os.path.dirname(os.path.dirname(os.path.abspath(__file__)))), "README.md")
PROMPT = "$ "


def shown(text):
    """Returns the commands of the README that run bin/kv, and the lines that are shown of what they print."""
    commands, printed, is_ours = [], [], False
    for line in text.splitlines():
        words = line.removeprefix("    ")
        if words == line:
            is_ours = False
        elif words.startswith(PROMPT):
            is_ours = "bin/kv" in words
            commands += [words.removeprefix(PROMPT)] if is_ours else []
        elif is_ours:
            printed.append(words)
    return commands, printed


def readme(kv, folder):
    """The commands are pasted together, in a folder where bin/kv is this program and there is no store yet."""
    with open(README, encoding="utf-8") as it:
        commands, expected = shown(it.read())
    if len(commands) < 2:
        raise Lost(f"README.md shows {len(commands)} commands of bin/kv")
    place = os.path.join(folder, "readme")
    os.makedirs(os.path.join(place, "bin"))
    os.symlink(kv, os.path.join(place, "bin", "kv"))
    ended = subprocess.run(["bash"], input="\n".join(commands) + "\n", cwd=place, stdout=subprocess.PIPE, stderr=subprocess.STDOUT, text=True, timeout=120, check=False)
    if ended.stdout.splitlines() != expected:
        raise Lost(f"README.md shows {expected}, and what is printed is {ended.stdout.splitlines()}")
    return f"{len(commands)} commands of README.md print what it shows, with a row that a kill left"


CASES = (readme,)
