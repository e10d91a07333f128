"""Kills kv while it makes a new file, and opens what it left: an empty one that takes rows."""
import os
import re
import subprocess
import time

from store import SMALL, Lost


def run(kv, folder, rng, kills, most_seconds=0.05):
    file = os.path.join(folder, "fresh.img")
    ready = missing = within = 0
    for kill in range(kills):
        if os.path.exists(file):
            os.remove(file)
        child = subprocess.Popen([kv, *SMALL, file], stdin=subprocess.PIPE, stdout=subprocess.PIPE, stderr=subprocess.DEVNULL, text=True)
        time.sleep(rng.uniform(0.0, most_seconds))
        child.kill()
        output = child.stdout.read()
        child.wait()
        child.stdin.close()
        child.stdout.close()
        if "ready" in output:
            ready += 1
        elif not os.path.exists(file):
            missing += 1
        else:
            within += 1
        again = subprocess.run([kv, *SMALL, file], input="scan 1 0 100\nput 1 1 aa\nget 1 1\n", capture_output=True, text=True)
        answers = re.sub(r"committed \d+", "committed", again.stdout).split("\n")[:-1]
        if again.returncode != 0 or answers != ["ready", "end 0", "committed", "row aa", "closed"]:
            raise Lost(f"kill {kill}: {again.stdout} {again.stderr}")
    return f"{kills} kills of a first opening: {missing} before the file was there, {within} while it was made, {ready} later; each file was opened and usable"
