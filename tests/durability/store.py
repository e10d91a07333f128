"""What the tests of durability share: transactions at random, a model of the rows, and runs of kv."""
import re
import subprocess


# That many commits may be kept besides those that were answered. If the sender waits for each answer, only the one in progress; else kv
# holds up to 16 answers more, while further lines are waiting.
IN_HAND = 1
MOST_UNANSWERED = 16 + IN_HAND


# The layout of the stores that tests make, which are read and written whole. A run over one that exists may ask for what it has.
SMALL = ("--slots", "1024")


class Lost(Exception):
    """What was acknowledged isn't found, or something else is."""


def after(rows, writes):
    """The rows after these writes, of which None is a deletion."""
    rows = dict(rows)
    for key, row in writes.items():
        if row is None:
            rows.pop(key, None)
        else:
            rows[key] = row
    return rows


class Transactions:
    """Transactions at random, no two of which write the same row."""

    def __init__(self, rng, keys, most_writes):
        self.rng, self.keys, self.most_writes, self.number = rng, keys, most_writes, 0

    def next(self):
        """The writes of one, and its lines."""
        writes, lines = {}, ["begin"]
        for key in self.rng.sample(range(self.keys), self.rng.randint(1, self.most_writes)):
            self.number += 1
            if self.rng.random() < 0.2:
                writes[key] = None
                lines.append(f"del 1 {key}")
            else:
                writes[key] = f"{self.number:016x}"
                lines.append(f"put 1 {key} {writes[key]}")
        return writes, lines + ["commit"]


def acknowledged(output):
    """How many commits a run of kv has answered."""
    lines = output.split("\n")[:-1]
    return sum(1 for line in lines if re.fullmatch(r"committed \d+", line))


def send_and_wait(child, sent):
    """Sends each of the transactions to kv once the one before is answered, as long as it answers: what it printed."""
    output = ""
    try:
        for _, lines in sent:
            child.stdin.write("\n".join(lines) + "\n")
            child.stdin.flush()
            line = " "
            while line and not acknowledged(line):
                line = child.stdout.readline()
                output += line
            if not line:
                break
    except (BrokenPipeError, ValueError):
        pass
    return output


def may_be_found(models, done, unanswered=MOST_UNANSWERED):
    """What may be found after that many commits were answered and at most that many weren't, where these are the rows after none, one and so on."""
    return models[done:done + 1 + unanswered]


def rows_in(kv, file, options=()):
    """The rows that kv finds in the file."""
    run = subprocess.run([kv, *options, file], input="scan 1 0 100000\n", capture_output=True, text=True, timeout=120)
    lines = run.stdout.splitlines()
    if run.returncode != 0 or "closed" not in lines:
        raise Lost(f"it isn't opened: status {run.returncode}, {run.stdout[-200:]} {run.stderr[-300:]}")
    return {int(words[1]): words[2] for words in map(str.split, lines) if words[0] == "row"}
