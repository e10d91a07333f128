"""Refuses each request for memory of the built programs in turn, and checks status, output and file.

It runs `wbl lives` over the scripts of lives in crates/test_scripts/data; the commands of wbl over one file that the other scripts
there name; `wbl threads`; the lives and the board of test_lives, with memory for all stores of the device and without; and
kv over a new and over an old file. Of each it refuses the first request, then the second alone, and so on to the last; then, of
wbl and kv, the first and all later ones, and so on. It fails at a crash, a run that doesn't end, a row that was never put, a first line
that differs and isn't OutOfMemory, a file that changed when the status isn't 0 or that isn't sound, a refusal of what takes no
memory, and a call that is still refused when it is asked again. It takes minutes, and needs the programs that `rt run` makes in
their crates' folders.
"""
import argparse
import concurrent.futures
import os
import shutil
import sys
import tempfile
from collections import Counter

import judging
import refusing

TOP = os.path.dirname(os.path.dirname(os.path.dirname(os.path.abspath(__file__))))
SCRIPTS = os.path.join(TOP, "crates/test_scripts/data")
RUNS = ("one_commit", "updates_lost_twice", "conflict", "old_snapshot", "window", "scans_and_deletions", "board")
THREADS = ("format db.img", "threads db.img --sessions 2 --commits 3")


KV_LINES = b"put 1 1 a1\nput 1 2 a2\nbegin\nput 1 3 a3\nput 1 4 a4\ncommit\nget 1 3\nscan 1 0 9\nput 1 5 a5\nfoo\n"
KV_COMMITS = ({1: "a1"}, {2: "a2"}, {3: "a3", 4: "a4"}, {5: "a5"})


class Programs:
    def __init__(self, wbl, runs, kv, library):
        self.wbl = wbl
        self.runs = runs
        self.kv = kv
        self.library = library


def each_refusal(programs, words, given, folder, for_good, counts):
    """Yields how the run ends with each of its requests refused in turn."""
    number = 1
    while True:
        ended = refusing.run_refusing(programs.library, number, for_good, words, given, folder)
        if ended is None:
            return
        counts["requests"] += 1
        yield number, ended
        number += 1


def blame(name, number, for_good, wrong):
    raise judging.Wrong(f"{name}, request {number}{' and all later ones' if for_good else ''}: {wrong}")


def refuse_lives(programs, name, folder):
    """A script of lives. It writes no file."""
    counts = Counter()
    script = os.path.join(SCRIPTS, name)
    with open(script, encoding="utf-8", errors="replace") as it:
        known = judging.put_by(it.read().splitlines())
    words = [programs.wbl, "lives", script]
    whole = refusing.run(words, b"", folder)
    for for_good in (False, True):
        for number, ended in each_refusal(programs, words, b"", folder, for_good, counts):
            try:
                counts["silent"] += judging.judge_wbl(ended, whole, known)
            except judging.Wrong as wrong:
                blame(f"lives {name}", number, for_good, wrong)
            counts["told"] += ended.lines != whole.lines
    return counts


def commands_in(name):
    """The commands of wbl in a script over one file, each with its lines. None: it has others too."""
    with open(os.path.join(SCRIPTS, name), encoding="utf-8", errors="replace") as it:
        parts = it.read().split("$ ")[1:]
    commands = [part.partition("\n") for part in parts]
    if not all(command.startswith("wbl ") for command, _, _ in commands):
        return None
    return [(command.split()[1:], lines) for command, _, lines in commands if command.split()[1:2] != ["threads"]]


def refuse_commands(programs, name, commands, folder):
    """Commands over one file, of which each is refused its memory in turn and then is granted it."""
    counts = Counter()
    known = judging.put_by(line for _, lines in commands for line in lines.splitlines())
    for words, lines in commands:
        refuse_command(programs, f"{name}: {' '.join(words)}", words, lines.encode(), known, folder, counts)
    return counts


def bytes_of(file):
    try:
        with open(file, "rb") as it:
            return it.read()
    except FileNotFoundError:
        return None


def put_back(file, before):
    if before is None:
        if os.path.exists(file):
            os.remove(file)
    else:
        with open(file, "wb") as it:
            it.write(before)


def refuse_command(programs, name, words, given, known, folder, counts):
    file = os.path.join(folder, "db.img")
    before = bytes_of(file)
    words = [programs.wbl, *words]
    whole = refusing.run(words, given, folder)
    after = bytes_of(file)
    for for_good in (False, True):
        put_back(file, before)
        for number, ended in each_refusal(programs, words, given, folder, for_good, counts):
            try:
                judge_command(programs, ended, whole, known, (file, before), counts)
            except judging.Wrong as wrong:
                blame(name, number, for_good, wrong)
            put_back(file, before)
    put_back(file, after)


def judge_command(programs, ended, whole, known, kept, counts):
    file, before = kept
    counts["silent"] += judging.judge_wbl(ended, whole, known)
    counts["told"] += ended.lines != whole.lines
    if ended.status != 0 and bytes_of(file) != before:
        raise judging.Wrong("the file changed")
    if any(it.startswith("db.img.wbl-new") for it in os.listdir(os.path.dirname(file))):
        raise judging.Wrong("a file was left next to it")
    if bytes_of(file) is not None and bytes_of(file) != before:
        judge_file(programs, file, known)


def judge_file(programs, file, known):
    """What was written is sound, and has no wrong row."""
    found = refusing.run([programs.wbl, "check", file], b"", os.path.dirname(file))
    if found.status != 0:
        raise judging.Wrong(f"a file that isn't sound: {found.lines}")
    judging.judge_rows(found.lines, known)


def refuse_threads(programs, folder):
    """Threads ask in any order, so that the number names another request in each run; what is printed is always the same."""
    counts = Counter()
    file = os.path.join(folder, "db.img")
    refusing.run([programs.wbl, *THREADS[0].split()], b"", folder)
    before = bytes_of(file)
    words = [programs.wbl, *THREADS[1].split()]
    whole = refusing.run(words, b"", folder)
    put_back(file, before)
    for number, ended in each_refusal(programs, words, b"", folder, False, counts):
        try:
            judging.judge_wbl(ended, whole, set())
            if ended.status != 0 and bytes_of(file) != before:
                raise judging.Wrong("the file changed")
            if ended.status == 0:
                judge_file(programs, file, set(judging.read_in(whole.lines)))
        except judging.Wrong as wrong:
            blame("threads", number, False, wrong)
        counts["told"] += ended.status != 0
        put_back(file, before)
    return counts


def refuse_run(programs, name, reserved, folder):
    """Lives, or a board, that ask again what is refused."""
    counts = Counter()
    words = [programs.runs, "refused", name, *(["reserved"] if reserved else [])]
    whole = refusing.run(words, b"", folder)
    judging.judge_tables(whole.lines)
    judge = judging.judge_asked_again if reserved or name == "board" else judging.judge_bare
    for number, ended in each_refusal(programs, words, b"", folder, False, counts):
        try:
            judging.judge_ending(ended, whole)
            went_on = judge(ended.lines, whole)
            judging.judge_tables(ended.lines)
            if ended.status == 0 and not went_on:
                raise judging.Wrong("it ended too early")
        except judging.Wrong as wrong:
            blame(f"{' '.join(words[1:])}", number, False, wrong)
        counts["told"] += ended.lines != whole.lines
    return counts


def refuse_kv(programs, is_new, folder):
    """kv over a file: what it answered committed is there, as a whole, and what it didn't isn't, except for the last of a run that failed."""
    counts = Counter()
    file = os.path.join(folder, "kv.img")
    refusing.run([programs.kv, file], b"", folder)
    before = None if is_new else bytes_of(file)
    put_back(file, before)
    words = [programs.kv, file]
    whole = refusing.run(words, KV_LINES, folder)
    for for_good in (False, True):
        put_back(file, before)
        for number, ended in each_refusal(programs, words, KV_LINES, folder, for_good, counts):
            try:
                judge_kv(programs, ended, whole, file)
            except judging.Wrong as wrong:
                blame(f"kv over {'a new' if is_new else 'an old'} file", number, for_good, wrong)
            counts["told"] += ended.told != whole.told
            put_back(file, before)
    return counts


def judge_kv(programs, ended, whole, file):
    judging.judge_ending(ended, whole)
    done = sum(it.startswith("committed ") for it in ended.lines)
    if ended.status != 1 and (ended.lines[0], ended.lines[-1]) != ("ready", "closed"):
        raise judging.Wrong(f"{ended.lines}")
    if ended.lines != whole.lines and ended.told == whole.told:
        raise judging.Wrong(f"nothing is told: {ended.lines}")
    found = refusing.run([programs.kv, file], b"scan 1 0 9\n", os.path.dirname(file))
    rows = {int(it.split()[1]): it.split()[2] for it in found.lines if it.startswith("row ")}
    kept = [it for it in KV_COMMITS if it.items() <= rows.items()]
    if found.status != 0 or sum(map(len, kept)) != len(rows) or len(kept) not in ((done, done + 1) if ended.status == 1 else (done,)):
        raise judging.Wrong(f"{done} committed, found {rows}: {found.told}")


def in_folder(test, *given):
    folder = tempfile.mkdtemp(dir="/dev/shm" if os.path.isdir("/dev/shm") else None)
    try:
        return test(*given, folder)
    finally:
        shutil.rmtree(folder)


def tests(programs, part):
    """Each kind of test, and its tests."""
    scripts = sorted(it for it in os.listdir(SCRIPTS) if it.endswith(".lives"))[::part]
    yield "lives", [(refuse_lives, programs, name) for name in scripts]
    files = sorted(it for it in os.listdir(SCRIPTS) if it.endswith(".script"))
    found = [(name, commands_in(name)) for name in files]
    yield "commands over a file", [(refuse_commands, programs, name, it) for name, it in found if it][:: min(part, 4)]
    yield "threads", [(refuse_threads, programs)]
    yield "asked again, with memory for stores", [(refuse_run, programs, name, True) for name in RUNS if name != "board"]
    yield "asked again", [(refuse_run, programs, name, False) for name in RUNS]
    yield "kv", [(refuse_kv, programs, True), (refuse_kv, programs, False)]


def main():
    parser = argparse.ArgumentParser(prog="./memory", description=__doc__, formatter_class=argparse.RawDescriptionHelpFormatter)
    parser.add_argument("--wbl", default=os.path.join(TOP, "crates/wbl/out/wbl"), help="the program, as rt run builds it")
    parser.add_argument("--runs", default=os.path.join(TOP, "crates/test_lives/out/test_lives"), help="test_lives, the same")
    parser.add_argument("--kv", default=os.path.join(TOP, "crates/kv/out/kv"), help="kv, the same")
    parser.add_argument("--only", nargs="*", metavar="NAME", help="these kinds alone, such as kv")
    parser.add_argument("--jobs", type=int, default=max(1, (os.cpu_count() or 2) // 2), help="runs at a time")
    parser.add_argument("--short", action="store_true", help="every twelfth script")
    words = parser.parse_args()
    with tempfile.TemporaryDirectory() as place, concurrent.futures.ThreadPoolExecutor(words.jobs) as pool:
        programs = Programs(*map(os.path.abspath, (words.wbl, words.runs, words.kv)), refusing.built(place))
        for name, each in tests(programs, 12 if words.short else 1):
            if words.only and name not in words.only:
                continue
            counts = Counter()
            try:
                for done in pool.map(lambda it: in_folder(*it), each):
                    counts.update(done)
            except judging.Wrong as wrong:
                pool.shutdown(cancel_futures=True)
                print(f"{name}: WRONG: {wrong}")
                sys.exit(1)
            print(f"{name}: {len(each)} runs, {counts['requests']} requests refused, of which {counts['told']} show in the output"
                  f" and {counts['silent']} end it without a word; no crash, no wrong row", flush=True)


main()
