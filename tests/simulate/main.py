"""Runs the engine at random, without end, and compares it with an engine in Python that was written from the documents alone.

    ./simulate                    plays until it is stopped, or until it finds a difference
    ./simulate --minutes 60       plays for an hour
    ./simulate --jobs 4           in four processes
    ./simulate --seed 17 --games 1        plays one game again, by its seed
    ./simulate --only lives       one kind of game: lives, images, room, memory or file
    ./simulate --controls         plants five defects, each in a copy of the tree, and looks for it by games of kind room

A seed is a game, and the same seed is the same game. There are five kinds:

    lives     a script for `wbl lives`: sessions, committer, collector, long commits, sweeps and closes over the modelled device,
              which is stopped after any number of operations, also within an opening, with the oldest or the newest survivors
    images    lives over an image of any version, stopped anywhere with any survivor of each word: what is left is checked by
              `wbl check`, and goes on by `wbl run`, and what that leaves is compared word by word
    room      lives over a device of each version, stopped anywhere with any survivor of each word, by the proved program of
              crates/test_lives, which the gate runs on 30 seeds
    memory    a script of lives one of whose requests for memory is refused, where the program takes its memory from the C library
    file      `bin/kv` over a file of any version: its system calls are traced, and the power fails before any of them, with
              each word that no sync followed old or new; it needs strace

What each prints is compared with what the engine in Python says, to the letter (`room` with a model of its own). It prints how much was
played, and of a difference its seed and the least script that it found for it, and ends with 1. If it can't go on, since the disk is
full or it fails itself, it says so and ends with 2: that isn't a difference. It needs `bin/wbl` and `bin/kv`, which `./build` makes, and for
`room` the program that `rt run` in crates/test_lives makes. The controls need nothing, since `rt try` builds their programs without
proofs.
"""
import argparse
import collections
import multiprocessing
import os
import pathlib
import resource
import shutil
import subprocess
import sys
import tempfile
import time
import traceback

import controls
from games import KINDS, Found, Programs, play

ROOT = pathlib.Path(__file__).resolve().parent.parent.parent
sys.path.insert(0, str(ROOT / "tests/memory"))

# A game takes no more of the disk than this many bytes.
LEAST_ROOM = 16_000_000

ENDINGS = ["no difference was found", "a difference was found", "it can't go on: no difference was found before"]


def kinds_here(words, refuse):
    """Returns the kinds of games that can be played here."""
    kinds = [words.only] if words.only else list(KINDS)
    wanted = {
        "room": (os.path.exists(words.room), "rt run in crates/test_lives"),
        "memory": (is_refused(words.wbl, refuse), "a C compiler, and a program that takes its memory from the C library"),
        "file": (shutil.which("strace") and os.path.exists(words.kv), "strace and bin/kv"),
    }
    for kind in kinds:
        if kind in wanted and not wanted[kind][0]:
            print(f"no games of kind {kind}: {wanted[kind][1]} is wanted", file=sys.stderr)
    return [kind for kind in kinds if kind not in wanted or wanted[kind][0]]


def is_refused(program, refuse):
    """Whether the program fails where all of its memory is refused: one with an allocator of its own would pass each game."""
    if refuse is None:
        return False
    told = {"LD_PRELOAD": refuse, "REFUSE_FROM": "1", "REFUSE_ALL": ""}
    return subprocess.run([program, "--help"], env=told, capture_output=True, check=False).returncode != 0


def built_refusing(folder):
    """Returns the allocator that refuses, or None where it can't be built."""
    from refusing import built
    try:
        return built(folder)
    except (OSError, subprocess.CalledProcessError):
        return None


def spent():
    """Returns how many microseconds of a processor this process took, and the programs that it ran."""
    usages = map(resource.getrusage, (resource.RUSAGE_SELF, resource.RUSAGE_CHILDREN))
    return int(sum(it.ru_utime + it.ru_stime for it in usages) * 1e6)


def is_full(folder):
    """Whether a program may have failed since there is no room for its files."""
    return shutil.disk_usage(folder).free < LEAST_ROOM


def timed(seed, kinds, programs):
    """Plays a game. Returns its kind, and its counts with what it took of a processor."""
    before = spent()
    kind, counts = play(seed, kinds, programs)
    counts["microseconds"] = spent() - before
    return kind, counts


def work(words, kinds, refuse, job, out):
    """Plays each of the job's games, from its first seed on, and puts out what comes of it: what was found, or why it can't go on."""
    end = time.monotonic() + 60 * words.minutes if words.minutes else None
    with tempfile.TemporaryDirectory() as folder:
        programs = Programs(words.wbl, words.kv, words.room, refuse, folder)
        for game in range(job, words.games or sys.maxsize, words.jobs):
            if end and time.monotonic() >= end:
                break
            seed = words.seed + game
            try:
                out.put((seed, *timed(seed, kinds, programs), None))
            except Exception as ended:
                is_found = isinstance(ended, Found) and not is_full(folder)
                said = f"{folder} is full" if is_full(folder) else str(ended) if is_found else traceback.format_exc()
                out.put((seed, "", collections.Counter(), (is_found, said, ended.script if is_found else None)))
                break
    out.put(None)


def rate_text(counts, kinds, seconds):
    games = ", ".join(f"{count} {kind}" for kind, count in sorted(kinds.items()))
    sums = ", ".join(f"{counts[it]:,} {it}" for it in ("lives", "steps", "stops", "operations", "images"))
    a_minute = 60 / max(seconds, 0.001)
    processor = f"{counts['microseconds'] / 60e6:.1f} of a processor"
    return f"{seconds / 60:.1f} minutes, {processor}: {games} games; {sums}; a minute {counts['lives'] * a_minute:,.0f} lives and {counts['images'] * a_minute:,.0f} images"


def print_found(seed, said, script):
    print(f"seed {seed}: {said}")
    if script:
        print(f"\nthis script for `wbl lives` shows it:\n\n{script}")


def simulate(words, refuse):
    """Plays in that many processes, and prints what comes of it. The status."""
    kinds = kinds_here(words, refuse)
    if not kinds:
        raise SystemExit("nothing can be played")
    out = multiprocessing.Queue()
    jobs = [multiprocessing.Process(target=work, args=(words, kinds, refuse, job, out)) for job in range(words.jobs)]
    for it in jobs:
        it.start()
    begin, said, left = time.monotonic(), time.monotonic(), words.jobs
    counts, played, status = collections.Counter(), collections.Counter(), 0
    try:
        while left and not status:
            came = out.get()
            left -= came is None
            if came:
                seed, kind, more, found = came
                counts.update(more)
                played[kind] += found is None
                if found:
                    is_found, *rest = found
                    print_found(seed, *rest)
                    status = 1 if is_found else 2
            if time.monotonic() - said > 60:
                said = time.monotonic()
                print(rate_text(counts, +played, said - begin), flush=True)
    except KeyboardInterrupt:
        pass
    for it in jobs:
        it.terminate()
    print(rate_text(counts, +played, time.monotonic() - begin))
    print(ENDINGS[status])
    return status


def main():
    parser = argparse.ArgumentParser(prog="./simulate", description=__doc__, formatter_class=argparse.RawDescriptionHelpFormatter)
    parser.add_argument("--seed", type=int, default=0, metavar="N", help="the first seed, else one that was never played")
    parser.add_argument("--minutes", type=float, default=0, metavar="M", help="ends after that many; by default it doesn't end")
    parser.add_argument("--games", type=int, default=0, metavar="N", help="ends after that many; by default it doesn't end")
    parser.add_argument("--jobs", type=int, default=1, metavar="J", help="how many processes play")
    parser.add_argument("--only", choices=list(KINDS), help="this kind of game alone")
    parser.add_argument("--wbl", default=str(ROOT / "bin/wbl"), metavar="FILE", help="the program, by default bin/wbl")
    parser.add_argument("--kv", default=str(ROOT / "bin/kv"), metavar="FILE", help="the store, by default bin/kv")
    room = ROOT / "crates/test_lives/out/test_lives"
    parser.add_argument("--room", default=str(room), metavar="FILE", help="the program of crates/test_lives")
    parser.add_argument("--controls", nargs="*", metavar="NAME", help="the five planted defects, or those that are named")
    words = parser.parse_args()
    if words.controls is not None:
        return controls.find(words.controls)
    if not os.path.exists(words.wbl):
        print(f"{words.wbl} isn't there: ./build makes it", file=sys.stderr)
        return 2
    words.seed = words.seed or int(time.time()) * 1_000_000
    print(f"the first seed is {words.seed}", flush=True)
    with tempfile.TemporaryDirectory() as folder:
        return simulate(words, built_refusing(folder))


if __name__ == "__main__":
    sys.exit(main())
