"""Kills kv at random instants, and opens its file again each time.

In every second life, at random, the sender waits for the answer of each transaction before it sends the next; in the others it sends
all without waiting. One is acknowledged where its answer reached the pipe before the kill. What is found must be the rows after
exactly the acknowledged ones, or after these and the next few, each as a whole: the one in progress and, where nobody waited, those whose
answers were held while further lines were waiting. The same file goes through all lives; in some it has a journal that a few commits
fill, and of some the next opening is killed too.
"""
import os
import subprocess
import threading
import time

from journal import shorten
from store import IN_HAND, MOST_UNANSWERED, SMALL, Lost, Transactions, acknowledged, after, rows_in, send_and_wait

KEYS = 40


def live(kv, file, transactions, delay, from_ready):
    """A life that a kill ends that many seconds after its start, or after it was ready: what it printed, and the writes of its
    transactions."""
    sent = [transactions.next() for _ in range(400)]
    text = "".join("\n".join(lines) + "\n" for _, lines in sent)
    child = subprocess.Popen([kv, *SMALL, file], stdin=subprocess.PIPE, stdout=subprocess.PIPE, stderr=subprocess.STDOUT, text=True)

    def feed():
        try:
            child.stdin.write(text)
            child.stdin.flush()
        except (BrokenPipeError, ValueError):
            pass

    feeder = threading.Thread(target=feed)
    feeder.start()
    ready = child.stdout.readline() if from_ready else ""
    time.sleep(delay)
    child.kill()
    output = ready + child.stdout.read()
    child.wait()
    feeder.join()
    child.stdout.close()
    return output, [writes for writes, _ in sent]


def live_waiting(kv, file, transactions, delay):
    """A life whose sender waits for each answer, ended by a kill that many seconds after its start: the same."""
    sent = [transactions.next() for _ in range(400)]
    child = subprocess.Popen([kv, *SMALL, file], stdin=subprocess.PIPE, stdout=subprocess.PIPE, stderr=subprocess.STDOUT, text=True)
    killer = threading.Timer(delay, child.kill)
    killer.start()
    output = send_and_wait(child, sent)
    killer.join()
    output += child.stdout.read()
    child.wait()
    try:
        child.stdin.close()
    except BrokenPipeError:
        pass
    child.stdout.close()
    return output, [writes for writes, _ in sent]


def open_in_vain(kv, file, delay):
    """An opening that a kill ends."""
    with subprocess.Popen([kv, *SMALL, file], stdin=subprocess.PIPE, stdout=subprocess.DEVNULL, stderr=subprocess.DEVNULL) as child:
        time.sleep(delay)
        child.kill()


def run(kv, folder, rng, kills, most_seconds=0.6):
    file = os.path.join(folder, "kill.img")
    transactions = Transactions(rng, KEYS, 4)
    model, total, early, kept, waited, kills_done = {}, 0, 0, 0, 0, 0
    while kills_done < kills:
        kill = kills_done
        if kill and rng.random() < 0.5:
            shorten(file)
        delay = rng.uniform(0.0, most_seconds * rng.choice([0.05, 0.2, 1.0]))
        waits = rng.random() < 0.5
        if waits:
            output, sent = live_waiting(kv, file, transactions, delay)
        else:
            output, sent = live(kv, file, transactions, delay, rng.random() < 0.6)
        most = IN_HAND if waits else MOST_UNANSWERED
        if "kv: " in output:
            raise Lost(f"kill {kill}: {output[-200:]}")
        done = acknowledged(output)
        early += "ready" not in output
        total += done
        waited += done if waits else 0
        for writes in sent[:done]:
            model = after(model, writes)
        kills_done += 1
        for _ in range(rng.choice([0, 0, 1, 2])):
            open_in_vain(kv, file, rng.uniform(0.0, 0.03))
            kills_done += 1
        found, answered, more = rows_in(kv, file, SMALL), model, 0
        while found != model:
            if more == most or done + more == len(sent):
                raise Lost(f"kill {kill}: expected {sorted(answered.items())}, found {sorted(found.items())}")
            model = after(model, sent[done + more])
            more += 1
        kept += more > 0
    return (f"{kills_done} kills, {early} of them before it was ready; {total} acknowledged transactions, {waited} of them to a sender that waited "
            f"for each answer, none lost and none in part; {kept} times some whose answers were still to be printed were kept, each as a whole")
