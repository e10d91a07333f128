"""What programs rely on that drive kv: which words create a store, that each line has one answer, and that what a sender lost isn't run."""
import os
import re
import struct
import sys

from shell import kv_on, made, one, want
from store import SMALL

TOP = os.path.dirname(os.path.dirname(os.path.dirname(os.path.abspath(__file__))))
sys.path.insert(0, os.path.join(TOP, "tests", "driver"))
from kv import Refused, Store  # noqa: E402


def names_in(output):
    """The answers, a refusal as its name alone, and a commit without its number."""
    return re.sub(r"^refused (\w+) .*$|(committed) \d+", r"\1\2", output, flags=re.M).splitlines()


def creation(kv, folder):
    """Only put, load and lines create a store; all else needs one."""
    file = os.path.join(folder, "typo.img")
    for words in (["dump"], ["get", "1", "5"], ["scan", "1"], ["count", "1"], ["stat"], ["tables"], ["del", "1", "5"]):
        ended = one(kv, file, *words)
        want(ended.returncode == 1 and ended.output == "" and ended.told.startswith(f"kv: {file}: no such file"), f"{words}", ended)
        want(not os.path.exists(file), f"{words} made a file")
        with open(file, "wb"):
            pass
        ended = one(kv, file, *words)
        want(ended.returncode == 1 and ended.output == "" and "the file is empty" in ended.told, f"{words} of an empty file", ended)
        want(os.path.getsize(file) == 0, f"{words} filled an empty file")
        os.remove(file)
    for words, text in ((["put", "1", "5", "aa"], ""), (["load"], ""), ([], "")):
        ended = one(kv, file, *SMALL, *words, text=text)
        want(ended.returncode == 0 and ended.told.startswith(f"created {file}: at most 1024 rows") and os.path.getsize(file), f"{words}", ended)
        os.remove(file)
    return "7 commands created no store, and three did"


def beginnings(kv, folder):
    """What may have been meant to begin a transaction isn't committed line by line; other lines that are refused stop nothing."""
    file = made(kv, folder)
    puts = "put 9 1 aa\nput 9 2 bb\n"
    for word in ("begn", "bgein", "Begin;", "beginn", "BEGNI", "begins", ".begin", "begin now", "b\\xffgin"):
        line = word.encode().replace(b"\\xff", b"\xff")
        ended = kv_on(kv, file, line + b"\n" + puts.encode() + b"commit\ncount 9\n")
        first = "NotText" if b"\xff" in line else "BadWords" if " " in word else "UnknownCommand"
        want(ended.returncode == 3 and names_in(ended.output) == ["ready", first, "TransactionBroken", "TransactionBroken", "NotCommitted", "count 0", "closed"], word, ended)
    for word in ("BEGIN", "Begin", "  begin  "):
        ended = kv_on(kv, file, f"{word}\n{puts}COMMIT\ncount 9\nbegin\ndel 9 1\ndel 9 2\ncommit\n")
        want(ended.returncode == 0 and "count 2\n" in ended.output, word, ended)
    for word in ("beginner", "foo", "gte 1 1", "put 9 x 00"):
        ended = kv_on(kv, file, f"{word}\n{puts}count 9\ndel 9 1\ndel 9 2\n")
        want(ended.returncode == 3 and names_in(ended.output)[2:] == ["committed", "committed", "count 2", "committed", "committed", "closed"], word, ended)
        ended = kv_on(kv, file, f"{word}\n{puts}", options=("--bail",))
        want(ended.returncode == 3 and len(ended.output.splitlines()) == 3 and len(ended.told.splitlines()) == 1, f"--bail, {word}", ended)
    ended = kv_on(kv, file, f"begin\n{puts}foo\ncommit\n", options=("--bail",))
    want(names_in(ended.output) == ["ready", "begun", "written", "written", "UnknownCommand", "closed"] and one(kv, file, "count", "9").output == "count 0\n", "--bail within a transaction", ended)
    return "9 misspelt beginnings kept nothing, 3 in other letters did, and 4 other wrong lines stopped nothing but with --bail"


def answers(kv, folder):
    """Each line has one answer, whose end can be told."""
    store = Store(made(kv, folder), kv=kv)
    for line, wanted in (
        ("get 1 1", "row a1"), ("get 1 9", "none"), ("scan 1 --limit 1", ["row 1 a1"]), ("scan 1 --limit 1 --reverse", ["row 2 a2"]), ("scan 1 --reverse --limit 1", ["row 2 a2"]),
        ("scan --reverse 1 --limit 1 2", ["row 2 a2"]), ("scan 7", []), ("count 1", "count 2"), ("tables", ["table 1 2"]), ("dump", ["begin", "put 1 1 a1", "put 1 2 a2", "commit"]), ("timing off", "timing off"),
        ("help get", ["get TABLE KEY", "Prints the row under the table and the key, or none.", "For example:", "    get 1 5"]), ("begin", "begun"), ("put 1 3 c3", "written"), ("commit", "committed 3"), ("begin", "begun"),
        ("commit", "done"), ("begin", "begun"), ("abort", "aborted"), ("del 1 3", "committed 4"),
    ):
        found = store.ask(line)
        want(found == wanted, f"{line}: {found}")
    want([it.split()[0] for it in store.ask("stat")] == "version slots places window width rows versions free gaps longs left".split(), "stat")
    want(store.ask("help")[-1].startswith("    kv old.img dump"), "help")
    want(store.close() == 0, "its status")
    return "22 lines had one answer each"


def driver(kv, folder):
    """The driver sends lines together, reads refusals, and finds what was acknowledged when its kv dies."""
    file = os.path.join(folder, "driver.img")
    store = Store(file, *SMALL, kv=kv)
    for start in range(0, 500, 100):
        found = store.ask_all(*(f"put 1 {at} {at:04x}" for at in range(start, start + 100)))
        want(found == [f"committed {at + 1}" for at in range(start, start + 100)], f"100 lines at once: {found[:3]}")
    want(store.ask_all(*(f"get 1 {at}" for at in range(100))) == [f"row {at:04x}" for at in range(100)], "100 reads at once")
    found = store.ask_all("begin", "put 1 1 zz", "put 1 2 ffff", "commit", "get 1 2")
    want([it.args[0] if isinstance(it, Refused) else it for it in found] == ["begun", "BadWords", "TransactionBroken", "NotCommitted", "row 0002"], f"a refusal within a transaction: {found}")
    for line, name in (("put 1 1 " + "00" * 33, "TooLong"), ("commit", "NoTransaction"), ("frob", "UnknownCommand")):
        try:
            want(False, f"{line}: {store.ask(line)}")
        except Refused as refused:
            want(refused.args[0] == name and "\n" not in refused.args[1], f"{line}: {refused}")
    want(store.ask_all("begin", "put 2 1 aa", "put 2 2 bb", "commit")[-1] == "committed 501", "a transaction")
    store.ask_all("begin", "put 2 1 cc")
    store.process.kill()
    try:
        want(False, f"kv has died: {store.ask('get 1 1')}")
    except (EOFError, BrokenPipeError):
        store.process.wait()
    store = Store(file, kv=kv)
    want(store.ask("scan 2") == ["row 1 aa", "row 2 bb"] and store.ask("count 1") == "count 500", "what was acknowledged is there")
    want(store.close() == 0, "its status")
    return "the driver's 600 lines were answered in their order, its refusals had names, and nothing acknowledged was lost when kv died"


def layouts(kv, folder):
    """A layout is asked for within its limits, and of a store that exists only if it has it."""
    file = made(kv, folder)
    for words in (["--slots", "65536"], ["--places", "3"], ["--window", "8"], ["--wide"], ["--slots", "1024", "--wide"], ["--lines", "1"]):
        ended = kv_on(kv, file, "get 1 1\n", options=words)
        want(ended.returncode == 2 and ended.output == "" and "it has 1024 slots of 32 bytes, 2 places and a window of 1024, and keeps them" in ended.told, f"{words}", ended)
    ended = kv_on(kv, file, "get 1 1\n", options=("--slots", "1024", "--places", "2", "--window", "1024"))
    want(ended.returncode == 0 and "row a1" in ended.output, "what it has may be asked for", ended)
    none = os.path.join(folder, "none.img")
    for option, number, limits in (("slots", 0, "1..=16777216"), ("slots", 16_777_217, "1..=16777216"), ("places", 1, "2..=64"), ("places", 65, "2..=64"), ("window", 3, "4..=1024"), ("window", 1_025, "4..=1024")):
        ended = kv_on(kv, none, "", options=(f"--{option}", str(number)))
        want(ended.returncode == 2 and f"--{option}" in ended.told and limits in ended.told and not os.path.exists(none), f"--{option} {number}", ended)
    return "6 layouts of others were refused for a store, and 6 numbers that no store has"


def command_words(kv, folder):
    """What is said about a command behind FILE that the shell or its user took for another one."""
    file = made(kv, folder)
    for words, status, told in (
        (["put", "1", "9", "beef"], 0, "kv: beef was read as bytes, two hexadecimal digits each; text needs quotation marks, which a shell takes away: '\"beef\"'"),
        (["put", "1", "9", "be0f"], 0, ""), (["put", "1", "9", "aa"], 0, ""),
        (["put", "1", "5", "milk"], 2, "kv: put: ROW milk: bytes are two hexadecimal digits each, and text needs quotation marks, which a shell takes away: '\"text\"'\n"),
        (["quit"], 2, "kv: quit ends lines of standard input"), (["timing", "on"], 2, "kv: timing is about the lines that follow it"), (["commit"], 2, "kv: a command after FILE is a transaction by itself"),
        (["get 1 5"], 2, 'kv: unknown command "get 1 5": give its words one by one'), (["GET", "1", "1"], 0, ""), (["frob"], 2, 'kv: unknown command "frob": help lists the commands'),
    ):
        ended = one(kv, file, *words)
        want(ended.returncode == status and ended.told.startswith(told) and bool(told) == bool(ended.told), f"{words}", ended)
    return "10 commands, and what is said about those that may mean another thing"


def near_end(kv, folder, record, last):
    """A store of 4 slots and a window of 8, whose last record has this number, and covers up to this timestamp."""
    file = os.path.join(folder, "end.img")
    if os.path.exists(file):
        os.remove(file)
    want(one(kv, file, "--slots", "4", "--window", "8", "load").returncode == 0, "a small store")
    with open(file, "r+b") as it:
        it.seek(64)
        it.write(struct.pack("<3Q", record, last, last + 1))
    return file


def last_numbers(kv, folder):
    """As many commits are left as stat says, and their end is told once."""
    for record, last, wanted in ((100, 2**62 - 21, 4), (2**62 - 4, 100, 2)):
        file = near_end(kv, folder, record, last)
        ended = kv_on(kv, file, "stat\n" + "put 1 1 aa\nstat\n" * wanted + "put 1 1 bb\nget 1 1\n")
        left = [int(it) for it in re.findall(r"^left (\d+)$", ended.output, re.M)]
        want(left == list(range(wanted, -1, -1)), f"left: {left}", ended)
        want(ended.output.count("committed") == wanted and ended.output.count("refused TimestampsOut") == 1 and "row aa" in ended.output, "the last commits", ended)
        want(ended.told.count("no timestamps or record numbers left") == 1 and len(ended.told.splitlines()) == 1, "it is told once", ended)
        want(ended.returncode == (3 if "closed" in ended.output else 1), "its status", ended)
    return "two stores made as many commits as were left, by their timestamps and by their records, and told the end once"


CASES = (creation, beginnings, answers, driver, layouts, command_words, last_numbers)
