"""What people lose by wbl: two programs on one file, a full disk, kills, and files that it may not replace."""
import fcntl
import itertools
import os
import re
import shutil
import stat
import struct
import subprocess
import time

from store import Lost

FORMAT = ("--slots", "16", "--places", "2", "--window", "8")
COMMIT = "begin\nput 2 1 7 6162\ndraw 2\nstamp 2\ncycle\npoll 2\n"
BUSY = "another process has the file open"
ORDERS = {"run": (), "format": FORMAT, "threads": ("--sessions", "1", "--commits", "1")}


def want(holds, said, ended=None):
    if not holds:
        raise Lost(said + (f": status {ended.returncode}, {ended.stdout[-300:]!r}, {ended.stderr[-300:]!r}" if ended else ""))


def ask(wbl, *words, text="", before=(), **more):
    return subprocess.run([*before, wbl, *words], input=text, capture_output=True, text=True, timeout=120, check=False, **more)


def made(wbl, folder, name="image.img"):
    file = os.path.join(folder, name)
    ended = ask(wbl, "format", file, *FORMAT)
    want(ended.returncode == 0 and ended.stdout.startswith("formatted"), "a new image is made", ended)
    want(os.listdir(folder).count(name) == 1 and not beside(folder), "nothing is next to it", ended)
    return file


def beside(folder):
    return [name for name in os.listdir(folder) if "wbl-new" in name]


def contents(file):
    with open(file, "rb") as handle:
        return handle.read()


def refused(ended, said):
    want(ended.returncode == 1 and ended.stdout.endswith("file fault\n"), said, ended)
    want("closed" not in ended.stdout and "formatted" not in ended.stdout, said + ": the work isn't said to be done", ended)


def two_programs(wbl, kv, folder):
    """While one has the file open, all others are refused, and the rows stay."""
    count = 0
    for holder in ("kv", "run"):
        for other in (*ORDERS, "kv", "check"):
            file = os.path.join(folder, f"{holder}.{other}")
            if holder == "kv":
                held = subprocess.Popen([kv, file], stdin=subprocess.PIPE, stdout=subprocess.PIPE, stderr=subprocess.DEVNULL, text=True)
                held.stdin.write("put 1 1 aa\n")
            else:
                made(wbl, folder, os.path.basename(file))
                held = subprocess.Popen([wbl, "run", file], stdin=subprocess.PIPE, stdout=subprocess.PIPE, text=True)
                held.stdin.write("begin\n")
            held.stdin.flush()
            held.stdout.readline(), held.stdout.readline()
            if other == "kv":
                ended = subprocess.run([kv, file], input="put 1 2 bb\n", capture_output=True, text=True, timeout=60, check=False)
                want(ended.returncode == 1, f"kv next to {holder}", ended)
            else:
                ended = ask(wbl, other, file, *ORDERS.get(other, ()))
                refused(ended, f"{other} next to {holder}")
            want(BUSY in ended.stderr, f"{other} next to {holder} says why", ended)
            output, _ = held.communicate("put 1 3 cc\n" if holder == "kv" else COMMIT.split("\n", 1)[1])
            want(held.returncode == 0 and "closed" in output, f"{holder} ends well next to {other}: {output}")
            rows = ask(wbl, "check", file).stdout
            want(("1 1 aa" in rows and "1 3 cc" in rows) if holder == "kv" else "1 7 6162" in rows, f"{holder} next to {other} keeps its rows: {rows}")
            count += 1
    return f"{count} pairs on one file; the second was refused, and what the first acknowledged is there"


def held_by_others(wbl, kv, folder):
    """While a format, threads or a check is delayed over the file, and while another program locks it, all are refused, except a check during a check."""
    count = 0
    for holder in ("format", "threads", "check", "another"):
        file = made(wbl, folder, f"{holder}.img")
        held, lock = None, None
        if holder == "another":
            lock = os.open(file, os.O_RDONLY)
            fcntl.flock(lock, fcntl.LOCK_EX)
        else:
            words = ["strace", "-f", "-o", os.devnull, "-e", "trace=flock", "-e", "inject=flock:delay_exit=6000000"]
            held = subprocess.Popen([*words, wbl, holder, file, *ORDERS.get(holder, ())], stdout=subprocess.PIPE, stderr=subprocess.PIPE, text=True)
            for _ in range(600):
                if f":{os.stat(file).st_ino} ".encode() in contents("/proc/locks"):
                    break
                time.sleep(0.1)
            else:
                held.kill()
                raise Lost(f"{holder} took no lock")
        for other in (*ORDERS, "kv", "check"):
            if other == "kv":
                ended = subprocess.run([kv, file], input="put 1 2 bb\n", capture_output=True, text=True, timeout=60, check=False)
                want(ended.returncode == 1, f"kv next to {holder}", ended)
            else:
                ended = ask(wbl, other, file, *ORDERS.get(other, ()))
                if holder == other == "check":
                    want(ended.returncode == 0, "a check during a check", ended)
                    continue
                refused(ended, f"{other} next to {holder}")
            want(BUSY in ended.stderr, f"{other} next to {holder} says why", ended)
            count += 1
        if lock is not None:
            os.close(lock)
        else:
            output, _ = held.communicate(timeout=120)
            want(held.returncode == 0 and output.splitlines()[-1].split()[0] in ("formatted", "closed", "end"), f"{holder} ends well: {output}")
    return f"{count} programs next to another that had the file, each refused; a check during a check wasn't"


def answers_come_at_once(wbl, _kv, folder):
    """Each answer of a run is printed before the next line is asked for; closed isn't."""
    file = made(wbl, folder)
    child = subprocess.Popen([wbl, "run", file], stdin=subprocess.PIPE, stdout=subprocess.PIPE, text=True)
    lines = [child.stdout.readline()]
    for line in COMMIT.splitlines():
        child.stdin.write(line + "\n")
        child.stdin.flush()
        lines.append(child.stdout.readline())
    output, _ = child.communicate()
    want(lines[-1] == "committed 1\n" and output.startswith("closed"), f"{lines}, {output}")
    return f"{len(lines)} lines, each as it came, and then closed"


def done_is_said_last(wbl, _kv, folder):
    """strace: closed, formatted and stopped are printed after the rename and after the sync of the folder."""
    for words, text, line in (("format", "", "formatted"), ("run", COMMIT, "closed"), ("run", "crash oldest\n", "stopped"), ("threads", "", "closed")):
        file, trace = made(wbl, folder), os.path.join(folder, "trace")
        more = FORMAT if words == "format" else ORDERS[words]
        ended = ask(wbl, words, file, *more, text=text, before=("strace", "-f", "-o", trace, "-e", "trace=write,rename,link,fsync"))
        calls = [call.split(None, 1)[1] for call in contents(trace).decode().splitlines() if "(" in call]
        at = next(i for i, call in enumerate(calls) if call.startswith(f'write(1, "{line}'))
        moved = next(i for i, call in enumerate(calls) if call.startswith("rename("))
        want(moved < at and any(call.startswith("fsync(") for call in calls[moved:at]), f"{words}: {calls[-6:]}", ended)
        os.remove(file)
    return "four orders, each line after the rename and the sync of the folder"


def failing_calls(wbl, _kv, folder):
    """Each write, sync, link, rename and change of rights that fails is a file fault, with its reason; FILE is as it was."""
    count = 0
    for call, error in (("fsync", "EIO"), ("rename", "EACCES"), ("fchmod", "EPERM"), ("flock", "ENOLCK"), ("statx", "EIO")):
        file = made(wbl, folder)
        old = contents(file)
        ended = ask(wbl, "run", file, text=COMMIT, before=("strace", "-f", "-o", os.devnull, "-e", f"inject={call}:error={error}:when=1"))
        refused(ended, f"{call} fails")
        want("os error" in ended.stderr and contents(file) == old and not beside(folder), f"{call} fails: FILE is as it was", ended)
        os.remove(file)
        count += 1
    return f"{count} calls failed in turn; FILE as it was, nothing next to it"


def killed(wbl, _kv, folder):
    """A kill at the rename or at the sync of the new file: FILE as it was, nothing said, and the next run goes on."""
    for call in ("fsync", "rename"):
        file = made(wbl, folder)
        old = contents(file)
        ended = ask(wbl, "run", file, text=COMMIT, before=("strace", "-f", "-o", os.devnull, "-e", f"inject={call}:signal=KILL:error=EIO:when=1"))
        want("closed" not in ended.stdout and contents(file) == old, f"killed at {call}", ended)
        left = {name: contents(os.path.join(folder, name)) for name in beside(folder)}
        again = ask(wbl, "run", file, text=COMMIT)
        want(again.returncode == 0 and "closed" in again.stdout, f"after a kill at {call}", again)
        want(left == {name: contents(os.path.join(folder, name)) for name in beside(folder)}, "what a killed program left isn't touched")
        for name in [*left, os.path.basename(file)]:
            os.remove(os.path.join(folder, name))
    return "killed at a sync and at a rename; FILE as it was"


def full_disk(wbl, _kv, folder):
    """On a full disk nothing is said to be done."""
    if os.getuid() != 0 or subprocess.run(["mount", "-t", "tmpfs", "-o", "size=100k", "tmpfs", folder], check=False, capture_output=True).returncode:
        return "not tried: no permission to mount"
    try:
        file = os.path.join(folder, "full.img")
        want(ask(wbl, "format", file).returncode == 0, "an image of 66,624 bytes fits")
        old = contents(file)
        for words, text in (("run", COMMIT), ("format", ""), ("threads", "")):
            ended = ask(wbl, words, file, text=text)
            refused(ended, f"{words} on a full disk")
            want("No space left" in ended.stderr and "was not written" in ended.stderr, f"{words} on a full disk says why", ended)
            want(contents(file) == old and not beside(folder), f"{words} on a full disk: FILE is as it was", ended)
    finally:
        subprocess.run(["umount", "-l", folder], check=True)
    return "three orders on a full disk, each a file fault with FILE as it was"


def what_is_replaced(wbl, _kv, folder):
    """A pipe, a device and a folder stay; a link is followed; what is next to it is another's."""
    fifo, there, link, away = (os.path.join(folder, name) for name in ("fifo", "there.img", "link.img", "away.img"))
    os.mkfifo(fifo)
    nodes = [fifo, folder]
    if os.getuid() == 0:
        nodes.append(os.path.join(folder, "node"))
        os.mknod(nodes[-1], 0o600 | stat.S_IFCHR, os.makedev(1, 3))
    for node in nodes:
        before = os.lstat(node)
        for words in ORDERS:
            refused(ask(wbl, words, node), f"{words} of {node}")
            want(os.lstat(node).st_ino == before.st_ino and os.lstat(node).st_mode == before.st_mode, f"{words} of {node}")
    made(wbl, folder, "there.img")
    os.symlink("there.img", link)
    ended = ask(wbl, "run", link, text=COMMIT)
    want(ended.returncode == 0 and os.path.islink(link) and "6162" in ask(wbl, "check", there).stdout, "a link is followed", ended)
    os.symlink("nowhere/at.all", away)
    refused(ask(wbl, "format", away), "a link that leads nowhere")
    victim = os.path.join(folder, "victim")
    with open(victim, "w", encoding="utf-8") as handle:
        handle.write("another's")
    os.symlink("victim", there + ".wbl-new-1")
    shutil.copy(victim, there + ".wbl-new")
    ended = ask(wbl, "run", there, text=COMMIT)
    want(ended.returncode == 0 and contents(victim) == contents(there + ".wbl-new") == b"another's", "what is next to it is another's", ended)
    want(os.path.islink(there + ".wbl-new-1") and not os.path.islink(there) and len(beside(folder)) == 2, f"next to it is {beside(folder)}", ended)
    return f"{len(nodes)} that aren't regular files stay, a link is followed, what is next to it is left alone"


def owners_and_rights(wbl, _kv, folder):
    """A replaced file keeps owner and permissions, except for rights that it would give to others."""
    for mode in (0o600, 0o640, 0o444, 0o666, 0o4600, 0o2755):
        file = made(wbl, folder)
        if os.getuid() == 0:
            os.chown(file, 65_534, 65_534)
        os.chmod(file, mode)
        old = os.stat(file)
        want(ask(wbl, "run", file, text=COMMIT).returncode == 0, f"run of {mode:o}")
        new = os.stat(file)
        want((new.st_uid, new.st_gid, stat.S_IMODE(new.st_mode)) == (old.st_uid, old.st_gid, mode & 0o777), f"{mode:o}: {new}")
        os.remove(file)
    return "six modes, each kept except for set-user-id and set-group-id"


def one_lasts(wbl, kv, folder):
    """Many formats and kvs of a missing file at once: exactly one makes it, and a row that was acknowledged stays."""
    for turn in range(20):
        file = os.path.join(folder, f"race{turn}.img")
        ones = [subprocess.Popen([wbl, "format", file, *FORMAT], stdout=subprocess.PIPE, stderr=subprocess.PIPE, text=True) for _ in range(3)]
        one = subprocess.Popen([kv, file], stdin=subprocess.PIPE, stdout=subprocess.PIPE, stderr=subprocess.PIPE, text=True)
        output, _ = one.communicate("put 1 1 aa\n")
        ends = [(child.communicate(), child.returncode) for child in ones]
        time.sleep(0)
        if "committed" in output and all(status for _, status in ends):
            want("1 1 aa" in ask(wbl, "check", file).stdout, f"turn {turn}: the row is there: {ends}")
        want(ask(wbl, "check", file).returncode == 0, f"turn {turn}: {output}, {ends}")
    return "20 races for a missing file, each with a sound image at the end"


def closed_streams(wbl, _kv, folder):
    """Whatever standard streams are closed, FILE gets no printed line."""
    count = 0
    for closed in itertools.chain.from_iterable(itertools.combinations(range(3), n) for n in range(4)):
        for words in ORDERS:
            file = made(wbl, folder)
            size = os.path.getsize(file)
            subprocess.run([wbl, words, file, *ORDERS[words]], input=COMMIT.encode() if 0 not in closed else None, stdout=subprocess.DEVNULL, stderr=subprocess.DEVNULL,
                           preexec_fn=lambda closed=closed: [os.close(it) for it in closed], timeout=60, check=False)
            want(os.path.getsize(file) == size and ask(wbl, "check", file).returncode == 0, f"{words}: descriptors {closed} closed")
            want(not beside(folder), f"{words}: descriptors {closed} closed: nothing is next to it")
            os.remove(file)
            count += 1
    return f"{count} runs with closed streams, and the image is sound"


def failing_output(wbl, _kv, folder):
    """Each write to standard output that fails ends the run; FILE is as it was and that is said, or it was written and only the last line is missing."""
    count = 0
    for words, text in (("run", COMMIT), ("format", ""), ("threads", "")):
        for error in ("EIO", "EAGAIN", "EPIPE"):
            for at in range(1, 40):
                file = made(wbl, folder)
                old = contents(file)
                ended = ask(wbl, words, file, *ORDERS[words], text=text, before=("strace", "-f", "-o", os.devnull, "-e", "trace=write", "-e", f"inject=write:error={error}:when={at}"))
                is_new = contents(file) != old
                sound = ask(wbl, "check", file)
                os.remove(file)
                if ended.returncode == 0:
                    break
                want(ended.returncode == 1 and sound.returncode == 0 and ended.stderr != "", f"{words}: write {at} fails by {error}", ended)
                want(is_new or "was not written" in ended.stderr or words == "format" or "file fault" in ended.stdout, f"{words}: write {at} fails by {error}", ended)
                want("closed" not in ended.stdout and "formatted" not in ended.stdout, f"{words}: write {at} fails by {error}: not said to be done", ended)
                count += 1
    want(count >= 20, f"{count} writes failed only")
    return f"{count} writes failed in turn: each ended with 1, and with a sound image"


def foreign(wbl, _kv, folder):
    """What isn't an image keeps its bytes and times."""
    count = 0
    for held in (b"one line of a text\n" * 34, bytes(range(256)) * 50, b"SQLite format 3\0" + bytes(8_176), bytes(6_400), b"x", b""):
        for words in ("run", "threads", "check"):
            file = os.path.join(folder, "foreign")
            with open(file, "wb") as out:
                out.write(held)
            os.utime(file, ns=(10**18, 10**18))
            before = os.stat(file)
            ended = ask(wbl, words, file, *ORDERS.get(words, ()), text=COMMIT)
            after = os.stat(file)
            want(ended.returncode == 1 and ended.stdout.startswith("refused"), f"{words} of {held[:20]!r}", ended)
            want(contents(file) == held and not beside(folder), f"{words} of {held[:20]!r}: the bytes stay")
            want((before.st_mtime_ns, before.st_ctime_ns, before.st_ino) == (after.st_mtime_ns, after.st_ctime_ns, after.st_ino), f"{words} of {held[:20]!r}: the times stay")
            count += 1
    return f"{count} orders over files that aren't images, which kept their bytes and times"


def numbers_end(wbl, kv, folder):
    """An image whose record numbers are at their end: each program says so, and ends."""
    file = os.path.join(folder, "last.img")
    want(ask(wbl, "format", file, "--slots", "4", "--places", "2", "--window", "8").returncode == 0, "a small image is made")
    image = contents(file)
    words = list(struct.unpack(f"<{len(image) // 8}Q", image))
    words[8:11] = [2**62 - 2, 5, 6]
    image = struct.pack(f"<{len(words)}Q", *words)
    runs = ([wbl, "run", file], COMMIT, "refused 15 TimestampsOut"), ([wbl, "threads", file, "--sessions", "2", "--commits", "2"], "", "refused 15 TimestampsOut"), ([kv, file], "put 1 1 aa\nget 1 1\n", "")
    for program, text, said in runs:
        with open(file, "wb") as out:
            out.write(image)
        want(ask(wbl, "check", file).returncode == 0, "the image is sound")
        try:
            ended = subprocess.run(program, input=text, capture_output=True, text=True, timeout=60, check=False)
        except subprocess.TimeoutExpired as late:
            raise Lost(f"{program[0]} {program[1:]} doesn't end") from late
        want(said in ended.stdout and "committed" not in ended.stdout, f"{program[:2]}", ended)
        want(program[0] == wbl or (ended.returncode in (1, 3) and "TimestampsOut" in ended.stdout + ended.stderr or "number" in ended.stdout + ended.stderr), f"{program[:2]}", ended)
        want(ask(wbl, "check", file).returncode == 0, f"{program[:2]}: the image is sound")
    return "three programs at the end of the record numbers, each of which said so"


def examples_of_help(wbl, _kv, folder):
    """The examples in the help of the subcommands, one after the other in its order."""
    listed = ask(wbl, "--help", cwd=folder)
    names = re.findall(r"^  (\w+) {2,}\S", listed.stdout.split("Commands:")[1].split("Options:")[0], re.M)
    want(names[:1] == ["format"], f"the subcommands: {names}", listed)
    count = 0
    for name in names:
        if name == "help":
            continue
        text = ask(wbl, name, "--help", cwd=folder).stdout.split("Example: wbl ")[1]
        words = re.match(r"[^,\n]+", text).group(0).split()
        lines = re.search(r", with the lines\n((?:  .*\n)+)", text)
        given = re.sub(r"^ +", "", lines.group(1), flags=re.M) if lines else ""
        if name == "lives":
            with open(os.path.join(folder, words[1]), "w", encoding="utf-8") as out:
                out.write(given)
        ended = ask(wbl, *words, text=given if name == "run" else "", cwd=folder)
        want(ended.returncode == 0, f"the example of {name}", ended)
        told = re.search(r"prints: ((?:.+\n?)+)", text)
        if told:
            want(ended.stdout == re.sub(r"^ +", "", told.group(1).rstrip("\n"), flags=re.M) + "\n", f"the example of {name} prints {told.group(1)!r}", ended)
        elif name == "run":
            want("committed 1\nclosed" in ended.stdout, "the example of run", ended)
        else:
            want(ended.stdout.endswith("row 6162\nstopped\n"), f"the example of {name}", ended)
        count += 1
    return f"{count} examples, in the order of the help"


CASES = [two_programs, answers_come_at_once, done_is_said_last, failing_calls, killed, full_disk, what_is_replaced, owners_and_rights, one_lasts, closed_streams,
         failing_output, foreign, held_by_others, numbers_end, examples_of_help]
