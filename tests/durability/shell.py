"""What people lose by kv, or are told wrongly: closed streams, an output that fails, a full disk, files of others, wrong lines."""
import itertools
import os
import pty
import re
import select
import shutil
import subprocess

from journal import tail_of
from store import SMALL, Lost, acknowledged, may_be_found, rows_in

DOCS = os.path.join(os.path.dirname(os.path.dirname(os.path.dirname(os.path.abspath(__file__)))), "docs")
BYTES = 66_112
FIRST = "put 1 1 a1\nput 1 2 a2\n"
ROWS = {1: "a1", 2: "a2"}
NEXT = "begin\nput 1 2 b2\nput 1 3 b3\ncommit\ndel 1 1\n"
MODELS = [ROWS, {1: "a1", 2: "b2", 3: "b3"}, {2: "b2", 3: "b3"}]
NOBODY = 65_534


def kv_on(kv, file, text, before=(), options=(), **more):
    """A run of kv with this input."""
    given = text if isinstance(text, bytes) else text.encode()
    ended = subprocess.run([*before, kv, *options, file], input=given, stdout=subprocess.PIPE, stderr=subprocess.PIPE, timeout=120, check=False, **more)
    ended.output, ended.told = ended.stdout.decode(), ended.stderr.decode()
    return ended


def want(holds, said, ended=None):
    if not holds:
        raise Lost(said + (f": status {ended.returncode}, {ended.output[-300:]!r}, {ended.told[-300:]!r}" if ended else ""))


def made(kv, folder, name="shell.img"):
    """A new store with two rows."""
    file = os.path.join(folder, name)
    if os.path.exists(file):
        os.remove(file)
    ended = kv_on(kv, file, FIRST, options=SMALL)
    want(ended.returncode == 0 and acknowledged(ended.output) == 2, "a new store takes two rows", ended)
    want(ended.told.startswith(f"created {file}: at most 1024 rows, and 1024 versions"), "a new store is told of", ended)
    return file


def strace(call, how):
    return ("strace", "-f", "-o", os.devnull, "-e", f"trace={call}", "-e", f"inject={call}:{how}")


def is_whole(file):
    """Whether it is empty, an image, or an image with its journal."""
    with open(file, "rb") as it:
        held = it.read()
    return len(held) in (0, BYTES) or (tail_of(held) or [0])[0] * 8 == BYTES


def closed_streams(kv, folder):
    """Whatever streams are closed, the file keeps its length and opens again."""
    count = 0
    for closed in itertools.chain.from_iterable(itertools.combinations(range(3), n) for n in range(4)):
        for is_new in (False, True):
            file = made(kv, folder)
            if is_new:
                os.remove(file)
            subprocess.run([kv, *SMALL, file], input=NEXT.encode() if 0 not in closed else None, stdout=subprocess.DEVNULL, stderr=subprocess.DEVNULL,
                           preexec_fn=lambda: [os.close(it) for it in closed], timeout=120, check=False)
            want(not os.path.exists(file) or is_whole(file), f"closed {closed}: {os.path.getsize(file)} bytes")
            rows = rows_in(kv, file)
            want(rows in (({}, {2: "b2", 3: "b3"}) if is_new else MODELS), f"closed {closed}: found {rows}")
            want(1 in closed or 0 in closed or rows == {2: "b2", 3: "b3"}, f"closed {closed}: {rows} only")
            count += 1
    return f"{count} runs with closed streams, and the file as it was answered"


def failing_output(kv, folder):
    """An output that fails ends the run; nothing that is durable is called refused."""
    count = 0
    base = made(kv, folder, "base.img")
    for error in ("EAGAIN", "EIO", "ENOSPC"):
        for at in range(1, 100):
            file = os.path.join(folder, "output.img")
            shutil.copy(base, file)
            ended = kv_on(kv, file, NEXT, strace("write", f"error={error}:when={at}"))
            if ended.returncode == 0:
                break
            want(ended.returncode == 1 and "standard output" in ended.told, f"write {at}", ended)
            want("refused" not in ended.output + ended.told, f"write {at}: refused", ended)
            rows, done = rows_in(kv, file), acknowledged(ended.output)
            want(rows in may_be_found(MODELS, done), f"write {at}: {done} acknowledged, found {rows}", ended)
            count += 1
    # Its writes are what it says when it is ready, the answers together, and what it says at its end.
    want(count >= 9, f"{count} writes failed only")
    return f"{count} runs whose output failed: each ended with 1, and with what was acknowledged"


def full_disk(kv, folder):
    """A disk that is full is told as one, and what was acknowledged is there."""
    base = made(kv, folder, "base.img")
    count = 0
    for call in ("pwrite64", "fdatasync"):
        for at in range(1, 60):
            file = os.path.join(folder, "full.img")
            shutil.copy(base, file)
            ended = kv_on(kv, file, NEXT + "get 1 2\n", strace(call, f"error=ENOSPC:when={at}+"))
            if ended.returncode == 0:
                break
            want(ended.returncode == 1 and "No space left on device" in ended.told, f"{call} {at}", ended)
            rows, done = rows_in(kv, file), acknowledged(ended.output)
            want(rows in may_be_found(MODELS, done), f"{call} {at}: {done} acknowledged, found {rows}", ended)
            count += 1
    return f"{count} runs over a full disk, each told as that; nothing acknowledged was lost"


def small_disk(kv, folder):
    """A new store on a disk that hasn't room for it."""
    place = os.path.join(folder, "small")
    os.makedirs(place, exist_ok=True)
    if os.geteuid() != 0 or subprocess.run(["mount", "-t", "tmpfs", "-o", "size=64k", "tmpfs", place], check=False, stderr=subprocess.DEVNULL).returncode:
        return "left out: it needs permission to mount a disk"
    try:
        file = os.path.join(place, "new.img")
        ended = kv_on(kv, file, FIRST, options=SMALL)
        want(ended.returncode == 1 and "No space left on device" in ended.told, "a small disk", ended)
        subprocess.run(["mount", "-o", "remount,size=4m", place], check=True)
        ended = kv_on(kv, file, FIRST, options=SMALL)
        want(ended.returncode == 0 and rows_in(kv, file) == ROWS, "once there is room", ended)
    finally:
        subprocess.run(["umount", place], check=True)
    return "a new store without room is refused as that, and is made once there is room"


def foreign_files(image):
    """Files that aren't stores, each with a word that is said about it."""
    yield "text", b"one line of a text\n" * 34, "no image begins here"
    yield "a multiple of a line", bytes(range(256)) * 50, "no image begins here"
    yield "another store", b"SQLite format 3\0" + bytes(8_176), "no image begins here"
    yield "as long as a store", b"not yours, " * 6_010 + b"..", "no image begins here"
    yield "zeros, as long as no new store", bytes(6_400), "no image begins here"
    yield "one byte", b"x", "no image begins here"
    yield "bytes after the last line", image + b"ready\ncommitted 2\nclosed\n", "25 bytes follow its image"
    yield "lines after the last", image + bytes(128), "128 bytes follow its image"
    yield "cut short", image[:-64], "64 bytes of 66112 are missing"
    yield "cut within a line", image[:-60], "60 bytes of 66112 are missing"
    yield "another version", image[:8] + b"\x09" + image[9:], "version 9"
    yield "other slots", image[:16] + b"\x00" * 8 + image[24:], "geometry"


def foreign(kv, folder):
    """What isn't a store keeps its bytes and its times."""
    with open(made(kv, folder), "rb") as it:
        image = it.read()
    count = 0
    for name, held, said in foreign_files(image):
        file = os.path.join(folder, "foreign")
        with open(file, "wb") as out:
            out.write(held)
        os.utime(file, ns=(10**18, 10**18))
        before = os.stat(file)
        ended = kv_on(kv, file, FIRST)
        after = os.stat(file)
        want(ended.returncode == 1 and said in ended.told and ended.output == "", name, ended)
        with open(file, "rb") as it:
            want(it.read() == held, f"{name}: the bytes changed")
        want((before.st_mtime_ns, before.st_ctime_ns, before.st_size) == (after.st_mtime_ns, after.st_ctime_ns, after.st_size), f"{name}: a time changed")
        count += 1
    cut = os.path.join(folder, "cut.img")
    with open(cut, "wb") as out:
        out.write(image + b"25 bytes that are printed")
    ended = kv_on(kv, cut, "")
    subprocess.run(re.search(r"truncate -s \d+ \S+", ended.told).group(0).split(), check=True)
    want(rows_in(kv, cut) == ROWS, "cut as it said, all rows are there")
    return f"{count} files that aren't stores kept their bytes and times; one with bytes after its image opened once cut as told"


def odd_names(kv, folder):
    """Words that name no store make none."""
    place = os.path.join(folder, "names")
    os.makedirs(place, exist_ok=True)
    os.mkfifo(os.path.join(place, "fifo"))
    os.mkdir(os.path.join(place, "folder"))
    held = sorted(os.listdir(place))
    for words, status in ([], 2), (["-x"], 2), (["--wrong"], 2), (["--help"], 0), (["-h"], 0), (["fifo"], 1), (["folder"], 1), (["/dev/null"], 1), (["none/x"], 1), ([""], 1):
        ended = subprocess.run([kv, *words], input=b"", capture_output=True, cwd=place, timeout=20, check=False)
        want(ended.returncode == status, f"kv {words}: status {ended.returncode}, {ended.stderr[-300:]}")
        want(sorted(os.listdir(place)) == held, f"kv {words} made {os.listdir(place)}")
        want((ended.stdout if status == 0 else ended.stderr) != b"", f"kv {words} said nothing")
    ended = subprocess.run([kv, *SMALL, "./-x"], input=FIRST.encode(), capture_output=True, cwd=place, timeout=20, check=False)
    want(ended.returncode == 0 and os.path.getsize(os.path.join(place, "-x")) == BYTES, "kv ./-x")
    return "10 words that name no store made none"


def folders(kv, folder):
    """The folder that a new file is in is synced, wherever a link leads; one that may not be read is needed only for a new file."""
    place, other = os.path.join(folder, "links"), os.path.join(folder, "links", "other")
    os.makedirs(other, exist_ok=True)
    link, trace = os.path.join(place, "link.img"), os.path.join(folder, "links.trace")
    os.symlink("other/target.img", link)
    ended = kv_on(kv, link, FIRST, ("strace", "-f", "-y", "-e", "trace=fsync,fdatasync", "-o", trace))
    with open(trace, encoding="utf-8", errors="replace") as it:
        synced = re.findall(r"fsync\(\d+<([^>]*)>\)\s*=\s*0", it.read())
    want(ended.returncode == 0 and os.path.realpath(other) in synced, f"synced were {synced}", ended)
    if os.geteuid() != 0:
        return "the folder of a link's target is synced; the rest is left out, as it takes another user"
    own = os.path.join(folder, "kv-of-nobody")
    shutil.copy(kv, own)
    os.chmod(own, 0o755)
    os.chmod(folder, 0o711)
    place = os.path.join(folder, "closed")
    os.makedirs(place, exist_ok=True)
    file = made(kv, place)
    os.chown(file, NOBODY, NOBODY)
    os.chmod(place, 0o711)
    ended = kv_on(own, file, "get 1 1\n", user=NOBODY)
    want(ended.returncode == 0 and "row a1" in ended.output, "a store in a folder that may not be read", ended)
    return "the folder of a link's target is synced; a store in a folder that may not be read opens"


def lines(kv, folder):
    """A line that isn't run is refused by its number, and the next one is read; a transaction with one isn't committed."""
    file = made(kv, folder)
    for text, status, answers, told in (
        (b"get 1 1\nput 1 1 \xff\xfe\nget 1 2\n", 3, ["row a1", "NotText", "row a2"], ["line 2: the line is not valid UTF-8"]),
        (b"get 1 1\n" + b"x" * 5_000 + b"\nget 1 2\n", 3, ["row a1", "LineTooLong", "row a2"], ["line 2: the line is longer than 4096 bytes"]),
        (b"get 1 1\n" + b"x " * 8_000_000 + b"\nget 1 2\n", 3, ["row a1", "LineTooLong", "row a2"], ["line 2: the line is longer than 4096 bytes"]),
        (b"get 1 1" + b" " * 4_089 + b"\nget 1 2\r\n", 0, ["row a1", "row a2"], []),
        (b"get 1 2\ndel 1 1", 3, ["row a2", "LineCut"], ["line 2: the input ended within this line"]),
        (b"begin\nput 1 1 b1\ncommit", 3, ["begun", "written", "LineCut"], ["line 3: the input ended within", "the input ended inside a transaction"]),
        (b"begin\nput 1 1 zz\nput 1 2 99\ncommit\nget 1 2\n", 3, ["begun", "BadWords", "TransactionBroken", "NotCommitted", "row a2"], ["line 2: put: ROW", "line 3: line 2 was refused, and its transaction", "line 4: nothing was committed, because line 2"]),
        (b"begin\n" + b"".join(b"put 2 %d 00\n" % it for it in range(33)) + b"commit\nscan 2 0 99\n", 3, ["begun", *["written"] * 32, "WriteSetFull", "NotCommitted", "end 0"], ["line 34: a transaction writes at most 32 keys: write this one in the next", "nothing was committed, because line 34"]),
        (b"begin\nbegin\nabort\ncommit\nabort\n", 3, ["begun", "TransactionOpen", "aborted", "NoTransaction", "NoTransaction"], ["line 2: a transaction is open", "line 4: no transaction is open", "line 5: no transaction is open"]),
        (b"begin\nput 1 9 99\n", 3, ["begun", "written"], ["the input ended inside a transaction"]),
        (b"begin x\nput 1 9 99\ncommit\nget 1 9\n", 3, ["BadWords", "TransactionBroken", "NotCommitted", "none"], ["line 1: begin takes no other words", "line 2: line 1 was", "line 3: nothing was committed, because line 1"]),
        (b"BEGIN\nPut 1 9 99\nABORT\nGet 1 1\nCount 1\n", 0, ["begun", "written", "aborted", "row a1", "count 2"], []),
        (b"put 1 9 -\nget 1 9\ndel 1 9\n", 0, ["committed", "row -", "committed"], []),
    ):
        ended = kv_on(kv, file, text)
        found = re.sub(r"^refused (\w+) .*$|(committed) \d+", r"\1\2", ended.output, flags=re.M).splitlines()
        want(ended.returncode == status and found == ["ready", *answers, "closed"], f"{text[:60]!r}", ended)
        want(all(it in ended.told for it in told) and (bool(told) or ended.told == ""), f"{text[:60]!r} told", ended)
    want(rows_in(kv, file) == ROWS, "the rows stay")
    return "13 inputs with wrong lines: each line was told by its number, the others were run, and no transaction was kept in part"


def words(kv, folder):
    """Each kind of line, and a copy into a larger store by what it dumps."""
    file = made(kv, folder)
    text = b'put 2 7 "a \\"b\\" \\\\ c\\n"\nget 2 7\nscan 1\nscan 1 2\nscan 1 --limit 1\nscan 1 0 9 --limit 1 --reverse\ncount 1\ntables\nquit\nget 1 1\n'
    ended = kv_on(kv, file, text)
    found = re.sub(r"committed \d+", "committed", ended.output).splitlines()
    wanted = ["ready", "committed", "row 6120226222205c20630a", "row 1 a1", "row 2 a2", "end 2", "row 2 a2", "end 1", "row 1 a1", "end 1",
              "row 2 a2", "end 1", "count 2", "table 1 2", "table 2 1", "end 2", "closed"]
    want(ended.returncode == 0 and found == wanted, "each kind of line", ended)
    for wrong, told in (
        ('get 1 "a"', 'get: KEY "\\"a\\"" is not a number'), ('put 1 1 "a', "put: ROW has no quotation mark at its end"), ('put 1 1 "a"b"', "put: ROW has a quotation mark"),
        ('put 1 1 "a\\x"', "put: ROW has an unknown escape"), ("scan", "scan: expected scan TABLE"), ("scan 1 2 3 4", "scan: expected scan TABLE"), ("count", "count: expected count TABLE"),
        ("tables 1", "tables takes no other words"), ("scan 1 --limit x", 'scan: --limit "x" is not a number'), ("put x 1 00", 'put: TABLE "x" is not a number'), ("scan 1 --limit", "scan: expected scan TABLE"),
        ("get 1 18446744073709551616", "get: KEY 18446744073709551616 is greater than 18446744073709551615"), ("del 65536 1", "del: TABLE 65536 is greater than 65535"),
        ("put 1 1 abc", "put: ROW abc: bytes are two hexadecimal digits each"), ("put 1 1 " + "00" * 481, "put: ROW has 481 bytes: at most 32 are allowed, or up to 480"),
        ("put 1 1 " + "00" * 33, "a row of this store has at most 32 bytes"), ("help foo", 'help: unknown command "foo"'), ("timing", "timing: expected timing on|off"), ("check", "wbl check FILE"), ("set 1 1 00", 'unknown command "set"'), ("end 3", "end is not a command"),
    ):
        ended = kv_on(kv, file, wrong + "\n")
        want(ended.returncode == 3 and "line 1: " in ended.told and told in ended.told, wrong, ended)
        want(re.fullmatch(r"ready\nrefused (BadWords|UnknownCommand|TooLong) .*\nclosed\n", ended.output) and told in ended.output, wrong, ended)
    kv_on(kv, file, "".join(f"put 9 {it} {it:02x}\n" for it in range(70)))
    *dumped, end = kv_on(kv, file, "dump\n").output.splitlines()[1:-1]
    want(dumped.count("commit") == 3 and end == "end 73", f"73 rows in {dumped.count('commit')} transactions, {end}")
    larger = os.path.join(folder, "larger.img")
    ended = subprocess.run([kv, larger, "--slots", "4096", "--wide"], input="\n".join(dumped) + "\n", capture_output=True, text=True, timeout=60, check=False)
    want(ended.returncode == 0 and "at most 4096 rows" in ended.stderr, f"a larger store: {ended.stderr}")
    want(kv_on(kv, larger, "dump\n").output.splitlines()[1:-2] == dumped, "the copy dumps the same")
    ended = kv_on(kv, larger, "put 1 1 " + "ab" * 96 + "\nget 1 1\n")
    want(ended.returncode == 0 and "row " + "ab" * 96 in ended.output, "a wide row", ended)
    for bad in (["--slots", "0"], ["--slots", "16777217"], ["--lines", "9"], ["--wide", "--lines", "2"], ["--slots"], ["--slots", "x"], ["--places", "1"]):
        ended = subprocess.run([kv, os.path.join(folder, "none.img"), *bad], input=b"", capture_output=True, timeout=20, check=False)
        want(ended.returncode == 2 and not os.path.exists(os.path.join(folder, "none.img")), f"{bad}: {ended.returncode}, {ended.stderr}")
    return "each kind of line answers; what is dumped makes the same store; wrong options make none"


def one(kv, file, *words, text=""):
    """A run of kv with these words behind the file's name."""
    ended = subprocess.run([kv, file, *words], input=text, capture_output=True, text=True, timeout=900, check=False)
    ended.output, ended.told = ended.stdout, ended.stderr
    return ended


def one_command(kv, folder):
    """A command behind the file's name is run alone; one that is misspelt makes no store."""
    file = os.path.join(folder, "one.img")
    for words, status, output in (
        (["put", "1", "5", '"two words"'], 0, "committed 1\n"), (["get", "1", "5"], 0, "row 74776f20776f726473\n"), (["--text", "get", "1", "5"], 0, 'row "two words"\n'),
        (["put", "1", "6", "-"], 0, "committed 2\n"), (["scan", "1", "--limit", "1", "--reverse"], 0, "row 6 -\nend 1\n"), (["count", "1"], 0, "count 2\n"), (["del", "1", "5"], 0, "committed 3\n"),
        (["get", "1", "5"], 0, "none\n"), (["tables"], 0, "table 1 1\nend 1\n"), (["dump"], 0, "begin\nput 1 6 -\ncommit\nend 1\n"), (["put", "1", "5", "00" * 33], 3, "refused TooLong "),
    ):
        ended = one(kv, file, *words)
        want(ended.returncode == status and ended.output[:len(output) or None] == output and "kv: line" not in ended.told, f"{words}", ended)
    none = os.path.join(folder, "none.img")
    for words in (["putt"], ["put", "1", "x", "00"], ["begin"], ["quit"], ["timing", "on"], ["help", "foo"], ["get", "1"], ["check"], ["get", "1", "5", "--slots", "8"]):
        ended = one(kv, none, *words)
        want(ended.returncode == 2 and ended.output == "" and ended.told.startswith("kv: ") and not os.path.exists(none), f"{words}", ended)
    ended = one(kv, none, "help")
    want(ended.returncode == 0 and "--slots 1000000 load" in ended.output and not os.path.exists(none), "help makes no store", ended)
    return "11 commands behind the file's name were run alone; 9 wrong ones made no store"


def text_rows(kv, folder):
    """A row that is printed is one that put takes back, in either form."""
    file = os.path.join(folder, "text.img")
    rows = ["milk", "", 'say "a\\b"\n', "\u00e4\u6f22", " ", "\\"]
    others = [b"\x00", b"a\tb", b"\x7f", b"\xc2\x80", b"\xff\xfe"]
    held = [it.encode() for it in rows] + others
    ended = kv_on(kv, file, "".join(f"put 1 {at} {row.hex() or '-'}\n" for at, row in enumerate(held)))
    want(ended.returncode == 0, "rows are put", ended)
    texts = [it.split(" ", 2)[2] for it in one(kv, file, "--text", "scan", "1").output.splitlines()[:-1]]
    digits = [it.split(" ", 2)[2] for it in one(kv, file, "scan", "1").output.splitlines()[:-1]]
    want(digits == [it.hex() or "-" for it in held], f"digits: {digits}")
    shown = ['"milk"', "-", '"say \\"a\\\\b\\"\\n"', '"\u00e4\u6f22"', '" "', '"\\\\"', *(it.hex() for it in others)]
    want(texts == shown, f"texts: {texts}")
    again = os.path.join(folder, "again.img")
    ended = one(kv, again, "load", text=one(kv, file, "--text", "dump").output)
    want(ended.returncode == 0 and ended.output == f"loaded {len(held)}\n", "what is dumped as text is loaded", ended)
    want(one(kv, again, "dump").output == one(kv, file, "dump").output, "and is the same")
    return f"{len(held)} rows, each printed as put takes it back"


def loading(kv, folder):
    """What dump prints load takes, up to the first line that it can't take, and says how many rows are in."""
    file = os.path.join(folder, "load.img")
    puts = [f"put 1 {at} {at:02x}" for at in range(70)]
    for text, status, output, told in (
        ("\n".join(puts) + "\n", 0, "loaded 70\n", ""),
        ("sound gate 4 p 1 d 2 gaps -\n2 1 aa\n2 2 -\nend 2\n\nready\nbegin\ncommit\nclosed\n", 0, "loaded 2\n", ""),
        ("\n".join([*puts[:40], "put 1 x 00", "put 3 1 00", ""]), 3, "BadWords\nloaded 32\n", 'line 41: load: KEY "x" is not a number'),
        ("get 1 1\n", 3, "BadWords\nloaded 0\n", "line 1: load: expected put TABLE KEY ROW, or TABLE KEY ROW"),
        ("put 1 1\n", 3, "BadWords\nloaded 0\n", "line 1: load: expected put TABLE KEY ROW"),
        ("x" * 5_000, 3, "LineTooLong\nloaded 0\n", "line 1: the line is longer than 4096 bytes"),
        ("", 0, "loaded 0\n", ""),
        # What a dump that was cut short loses: the end of a line, a commit, rows before it.
        ("\n".join(["begin", *puts[:2], "commit", "begin", *puts[2:5]])[:-1], 3, "LineCut\nloaded 2\n", "line 8: the input ended within"),
        ("\n".join(["begin", *puts[:2], "commit", "begin", *puts[2:5], ""]), 3, "Unfinished\nloaded 2\n", "line 8: load: the input ended between begin and commit"),
        ("\n".join(["begin", *puts[:2], "commit", "end 3", ""]), 3, "BadWords\nloaded 2\n", "line 5: load: the list had 3 rows, and 2 of them came"),
        ("\n".join([*puts[:2], "commit", ""]), 3, "BadWords\nloaded 0\n", "line 3: load: commit without begin"),
        ("begin\nbegin\n", 3, "BadWords\nloaded 0\n", "line 2: load: begin within begin"),
        ("Begin\n" + "".join(f"PUT 5 {at} 00\n" for at in range(33)) + "COMMIT\n", 3, "WriteSetFull\nloaded 0\n", "line 34: a transaction writes at most 32 keys"),
    ):
        ended = one(kv, file, "load", text=text)
        found = re.sub(r"^refused (\w+) .*$", r"\1", ended.output, flags=re.M)
        want(ended.returncode == status and found == output and told in ended.told, f"{text[-40:]!r}", ended)
    want(one(kv, file, "tables").output == "table 1 70\ntable 2 2\nend 2\n", "what was loaded is there, and no more")
    ended = kv_on(kv, file, "begin\nload\nabort\nload\nput 4 1 aa\n4 2 bb\n")
    want(ended.returncode == 3 and re.fullmatch(r"ready\nbegun\nrefused TransactionOpen .*\naborted\nloaded 2\nclosed\n", ended.output) and "line 2: a transaction is open" in ended.told, "load as a line", ended)
    want(one(kv, file, "count", "4").output == "count 2\n", "the lines behind it are in")
    return "13 loads, of which those with a wrong line end there and say what is kept"


def full_store(kv, folder):
    """A full store says so, and how to get a larger one works."""
    full, large = os.path.join(folder, "full.img"), os.path.join(folder, "large.img")
    ended = one(kv, full, "--slots", "8", "--window", "8", "load", text="".join(f"1 {at} {at:02x}\n" for at in range(1, 9)))
    want(ended.returncode == 0 and ended.output == "loaded 8\n" and "at most 8 rows, and 8 versions" in ended.told, "it takes 8 rows", ended)
    want("rows 8\nversions 8\nfree 0\n" in one(kv, full, "stat").output, "none is free")
    for words in (["put", "1", "9", "09"], ["put", "1", "8", "ff"]):
        ended = one(kv, full, *words)
        want(ended.returncode == 3 and ended.output == "refused SlotsOut " + ended.told[4:], f"{words}", ended)
        want(ended.told == "kv: no slot is free, and an update needs one too: delete a row, or copy all rows into a store with more slots, as help shows\n", f"{words}", ended)
    ended = one(kv, full, "load", text="1 9 09\n")
    want(ended.returncode == 3 and ended.output.startswith("refused SlotsOut ") and ended.output.endswith("\nloaded 0\n") and "line 1: no slot is free" in ended.told, "load", ended)
    copied = subprocess.run(f"{kv} {full} dump | {kv} {large} --slots 65536 load", shell=True, capture_output=True, text=True, timeout=120, check=False)
    want(copied.returncode == 0 and copied.stdout == "loaded 8\n" and "at most 65536 rows" in copied.stderr, f"the copy: {copied}")
    want(one(kv, large, "put", "1", "9", "09").returncode == 0 and rows_in(kv, large) == {at: f"{at:02x}" for at in range(1, 10)}, "the larger one takes more")
    want("slots 65536\n" in one(kv, large, "stat").output and one(kv, full, "del", "1", "1").returncode == 0 and one(kv, full, "put", "1", "9", "09").returncode == 0, "a deletion makes room")
    want(one(kv, large, "load", text="".join(f"2 {at} 00\n" for at in range(65_536 - 9))).returncode == 0, "it takes 65,536 rows")
    ended = kv_on(kv, large, "put 1 9 ff\ndel 2 0\nput 1 9 ff\nput 1 8 ff\nget 1 9\n")
    want(ended.returncode == 3 and re.search(r"refused SlotsOut no slot is free, and an update needs one too: delete a row, or copy all rows into a store with more slots, as help shows\n(committed \d+\n){3}row ff\nclosed\n$", ended.output), "a full store of 65,536", ended)
    return "a store with 8 slots refuses the ninth row, and its copy with 65,536 takes it; a full one of these is updated once a row is deleted"


def timed(kv, folder):
    """Times are printed on standard error, from the line that asks for them on."""
    ended = kv_on(kv, made(kv, folder), "get 1 1\ntiming on\nget 1 1\nget 1 2\ntiming off\nget 1 1\n")
    want(ended.output == "ready\nrow a1\ntiming on\nrow a1\nrow a2\ntiming off\nrow a1\nclosed\n", "the answers", ended)
    want(re.fullmatch(r"(took \d+\.\d{6} s\n){2}", ended.told), "two times", ended)
    return "two lines were timed"


def examples_of_help(kv, folder):
    """The examples in the help, one after the other in its order: each is run."""
    file = os.path.join(folder, "shop.img")
    listed = one(kv, file, "help").output
    names = re.findall(r"^    (\w+)\b.* {2,}\S", listed, re.M)
    want(names == "put get del scan count tables begin commit abort stat dump load timing help quit".split(), f"the commands: {names}")
    lines = []
    for name in names:
        text = one(kv, file, "help", name).output
        want(text.startswith(name) and "\nFor example:\n" in text, f"help {name}: {text}")
        found = re.findall(r"^    (.*)$", text.split("For example:\n")[1], re.M)
        want(any(it.split()[0] == name or f" {name}" in it for it in found), f"the example of {name}: {found}")
        lines += found
    given = [it for it in lines if not it.startswith("kv ")]
    ended = kv_on(kv, file, "\n".join(given) + "\n")
    want(ended.returncode == 0 and ended.output.endswith("closed\n"), "the examples in their order", ended)
    for line in lines:
        if line.startswith("kv "):
            want(shell_in(kv, folder, line.replace("old.img", "shop.img"))[0] == 0, line)
    want(one(kv, os.path.join(folder, "new.img"), "dump").output == one(kv, file, "dump").output, "the copy has the same rows")
    return f"{len(names)} examples, in the order of the help"


def shell_in(kv, folder, line):
    """What a shell does with a line, in the folder: its status, and what is printed and told, in this order."""
    programs = os.path.join(folder, "programs")
    os.makedirs(programs, exist_ok=True)
    if not os.path.lexists(os.path.join(programs, "kv")):
        os.symlink(kv, os.path.join(programs, "kv"))
    place = {**os.environ, "PATH": programs + os.pathsep + os.environ["PATH"]}
    ended = subprocess.run(["bash", "-o", "pipefail", "-c", line], cwd=folder, env=place, stdin=subprocess.DEVNULL, stdout=subprocess.PIPE, stderr=subprocess.STDOUT,
                           text=True, timeout=120, check=False)
    return ended.returncode, ended.stdout


def examples_of_page(kv, folder):
    """The examples of docs/KV.md, one after the other: each prints what is there."""
    with open(os.path.join(DOCS, "KV.md"), encoding="utf-8") as page:
        text = page.read()
    examples = re.findall(r"^    \$ (.*)\n((?:    (?!\$ ).*\n)*)", text, re.M)
    ran = 0
    for line, shown in examples:
        if "old.img" in line:
            line = line.replace("old.img", "shop.img")
        found = shell_in(kv, folder, line)[1]
        wanted = re.sub(r"^    ", "", shown, flags=re.M)
        want(sorted(found.splitlines()) == sorted(wanted.splitlines()) or (not wanted and "loaded" in found), f"{line}: {found!r} for {wanted!r}")
        ran += 1
    want(ran >= 7, f"{ran} examples only")
    return f"{ran} examples of docs/KV.md print what it says"


def at_terminal(kv, folder):
    """At a terminal there is a prompt, which shows a transaction, and rows are tables with a header."""
    file = made(kv, folder)
    ours, theirs = pty.openpty()
    with subprocess.Popen([kv, file], stdin=theirs, stdout=theirs, stderr=theirs, close_fds=True) as run:
        os.close(theirs)
        text = until(ours, b"> ")
        for line in (b"put 1 7 \"milk\"\n", b"begin\n", b"get 1 7\n", b"gte 1 7\n", b"commit\n", b"scan 1\n", b"tables\n"):
            os.write(ours, line)
            text += until(ours, b"> ")
        os.write(ours, b"quit\n")
        text += until(ours, b"closed\r\n")
        want(run.wait(timeout=60) == 3, "its status")
    os.close(ours)
    text = text.decode().replace("\r\n", "\n")
    for part in ("kv> put 1 7", "begun\nkv*> ", 'row "milk"\nkv*> ', 'refused: unknown command "gte": help lists the commands\nkv*> ', "done\nkv> ",
                 '                 key | row\n---------------------+----\n                   1 | a1\n', '                   7 | "milk"\nend 3\n', "table | rows\n------+------\n    1 |     3\n"):
        want(part in text, f"at a terminal {part!r} in {text!r}")
    return "a prompt that shows a transaction, tables with headers, and a misspelt line that may be typed again"


def until(ours, end):
    """What is printed up to this end."""
    text = b""
    while not text.endswith(end):
        want(select.select([ours], [], [], 60)[0], f"nothing more after {text!r}")
        text += os.read(ours, 4096)
    return text


def two_at_once(kv, folder):
    """A second kv on the file is told so, and the first goes on."""
    file = made(kv, folder)
    with subprocess.Popen([kv, file], stdin=subprocess.PIPE, stdout=subprocess.PIPE, text=True) as first:
        want(first.stdout.readline() == "ready\n", "the first is ready")
        ended = kv_on(kv, file, "get 1 1\n")
        want(ended.returncode == 1 and ended.output == "" and "another process has the file open" in ended.told, "the second", ended)
        output, _ = first.communicate("put 1 3 c3\n", timeout=60)
        want(first.returncode == 0 and acknowledged(output) == 1, f"the first: {output}")
    want(rows_in(kv, file) == {**ROWS, 3: "c3"}, "the first one's row is there")
    return "a second run on the file is refused, and the first one goes on"


def unlinked(kv, folder):
    """A store whose name is taken away while it is open isn't closed as if it were there; one that was moved is."""
    for name, status, way in (("gone.img", 1, os.remove), ("moved.img", 0, lambda file: os.rename(file, file + ".moved"))):
        file = os.path.join(folder, name)
        with subprocess.Popen([kv, file], stdin=subprocess.PIPE, stdout=subprocess.PIPE, stderr=subprocess.PIPE, text=True) as run:
            want(run.stdout.readline() == "ready\n", f"{name}: ready")
            way(file)
            output, told = run.communicate("put 1 3 c3\n", timeout=60)
            want(run.returncode == status and ("closed" in output) == (status == 0), f"{name}: status {run.returncode}, {output} {told}")
            want(("the file was removed while it was open" in told) == (status == 1), f"{name}: {told}")
    want(rows_in(kv, os.path.join(folder, "moved.img.moved")) == {3: "c3"}, "the moved file has the row")
    return "a store that was unlinked isn't closed, and one that was moved is"


def unread_folder(kv, folder):
    """A new store in a folder that may be written and not read isn't opened, and leaves nothing; an old one there is opened."""
    place = os.path.join(folder, "unread")
    os.mkdir(place)
    for at in (folder, place):
        os.chmod(at, 0o777)
    nobody = {"user": 65534, "group": 65534, "extra_groups": []} if os.getuid() == 0 else {}
    program = os.path.join(folder, "kv_there")
    shutil.copy(kv, program)
    os.chmod(program, 0o755)
    new, old = os.path.join(place, "new.img"), os.path.join(place, "old.img")
    subprocess.run([program, old], input="put 1 1 a1\n", capture_output=True, text=True, timeout=60, check=True, cwd=place, **nobody)
    os.chmod(place, 0o333)
    for _ in range(2):
        ended = subprocess.run([program, new], input="put 1 1 a1\n", capture_output=True, text=True, timeout=60, check=False, cwd=place, **nobody)
        want(ended.returncode == 1 and "ready" not in ended.stdout, f"a new one: {ended}")
        want(not os.path.lexists(new), "an empty file is left")
    ended = subprocess.run([program, old], input="get 1 1\n", capture_output=True, text=True, timeout=60, check=False, cwd=place, **nobody)
    want(ended.returncode == 0 and "row a1" in ended.stdout, f"an old one: {ended}")
    os.chmod(place, 0o777)
    return "in a folder that may not be read a new store isn't opened and leaves nothing, and an old one is opened"


CASES = (closed_streams, failing_output, full_disk, small_disk, foreign, odd_names, folders, lines, words, one_command, text_rows, loading, full_store, timed,
         examples_of_help, examples_of_page, at_terminal, two_at_once, unlinked, unread_folder)
