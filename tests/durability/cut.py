"""Files that another program cut or made longer while a journal was in them, and images from before there was one."""
import os
import re
import signal
import subprocess

from journal import bytes_of, has_no_journal, tail_of
from store import SMALL, Lost, rows_in

ROWS = {at: f"{at:02x}" for at in range(1, 9)}
LAYOUTS = (("--slots", "16", "--places", "2", "--window", "8"), ("--slots", "16", "--places", "2", "--window", "8", "--wide"), ("--slots", "16", "--places", "2", "--window", "8", "--lines", "2"), ("--slots", "40", "--places", "5", "--window", "16"))
COMMIT = "begin\nput 2 1 7 6162\ndraw 2\nstamp 2\ncycle\npoll 2\n"


def want(holds, said):
    if not holds:
        raise Lost(said)


def contents(file):
    with open(file, "rb") as it:
        return it.read()


def left_open(kv, file, is_made):
    """The bytes of a file whose journal has rows that its image doesn't have in place; it was made and closed before, or not."""
    if is_made:
        subprocess.run([kv, *SMALL, file], input="", capture_output=True, text=True, timeout=60, check=True)
    lines = "".join(f"put 1 {at} {row}\n" for at, row in ROWS.items())
    with subprocess.Popen([kv, *SMALL, file], stdin=subprocess.PIPE, stdout=subprocess.PIPE, stderr=subprocess.DEVNULL, text=True) as run:
        run.stdin.write(lines)
        run.stdin.flush()
        for _ in range(1 + len(ROWS)):
            run.stdout.readline()
        run.send_signal(signal.SIGKILL)
    return contents(file)


def wrong_lengths(held):
    """The file cut or made longer, each with how many bytes it has."""
    image, whole = 8 * tail_of(held)[0], len(held)
    ends = {64, image - 64, image - 8, image + 1, image + 8, image + 64, image + 512, (image + whole) // 2 // 64 * 64, whole - 64, whole - 8, whole - 1}
    for end in sorted(ends):
        yield f"{end} of {whole} bytes", held[:end]
    for more in (b"ready\ncommitted 2\nclosed\n", bytes(64), bytes(4_096), held[:64]):
        yield f"{len(more)} bytes more than {whole}", held + more


def damaged_tails(held):
    """The file with a last line that names no image and journal, each with what is wrong in it."""
    for at, name in ((-64, "other letters"), (-56, "another image"), (-48, "another room"), (-40, "no pass"), (-8, "a last word")):
        end = at + 8 or None
        yield f"a tail with {name}", held[:at] + b"\x7f" * 8 + (held[end:] if end else b"")
    yield "a tail of zeros", held[:-64] + bytes(64)


def cut_journals(kv, _wbl, folder):
    """A file with a journal that was cut, has something behind it or a damaged tail is refused and keeps its bytes; as it was it opens."""
    count = 0
    for is_made in (False, True):
        file = os.path.join(folder, f"cut{is_made}.img")
        held = left_open(kv, file, is_made)
        want(tail_of(held) is not None, f"a file that is open has a journal: {len(held)} bytes")
        for name, other in [*wrong_lengths(held), *damaged_tails(held)]:
            want_refused(kv, file, name, other, len(held))
            count += 1
        with open(file, "wb") as out:
            out.write(held)
        rows = rows_in(kv, file)
        want(rows == ROWS, f"as it was: {rows}")
        want(len(contents(file)) == 8 * tail_of(held)[0], "a close leaves the image alone")
    return f"{count} files with a journal of another length, or with a damaged tail, were refused and kept their bytes; as they were, they have their rows"


def want_refused(kv, file, name, other, whole):
    """A file with these bytes is refused and keeps them, and nobody is told to cut off any of the bytes that it had as a whole."""
    with open(file, "wb") as out:
        out.write(other)
    ended = subprocess.run([kv, file], input="get 1 1\n", capture_output=True, text=True, timeout=60, check=False)
    want(ended.returncode == 1 and "row" not in ended.stdout and ended.stderr, f"{name}: status {ended.returncode}, {ended.stdout} {ended.stderr}")
    want(contents(file) == other, f"{name}: the bytes changed")
    cut = re.search(r"truncate -s (\d+)", ended.stderr)
    want(not cut or len(other) - int(cut.group(1)) < 8 or whole <= int(cut.group(1)), f"{name}: told was {ended.stderr}")


def journals_read(kv, wbl, folder):
    """wbl reads a file with a journal as what it stands for, and changes nothing of it but by a run, which leaves an image alone."""
    file = os.path.join(folder, "read.img")
    held = left_open(kv, file, True)
    checked = subprocess.run([wbl, "check", file], capture_output=True, text=True, timeout=60, check=False)
    want(checked.returncode == 0 and all(f"1 {at} {row}" in checked.stdout for at, row in ROWS.items()), f"wbl check: {checked}")
    want(contents(file) == held, "wbl check changed the file")
    ran = subprocess.run([wbl, "run", file], input="begin\nput 2 1 9 09\ndraw 2\nstamp 2\ncycle\npoll 2\n", capture_output=True, text=True, timeout=60, check=False)
    want(ran.returncode == 0 and has_no_journal(contents(file)), f"wbl run: {ran}")
    rows = rows_in(kv, file)
    want(rows == {**ROWS, 9: "09"}, f"after wbl run: {rows}")
    return "a file with a journal was checked and run as what it stands for"


def growing_files(kv, wbl, folder):
    """A closed store behind whose image a journal was being made, up to some words of its first tail, is one for kv and for wbl."""
    file, grown = os.path.join(folder, "grown.img"), os.path.join(folder, "growing.img")
    lines = "".join(f"put 1 {at} {row}\n" for at, row in ROWS.items())
    subprocess.run([kv, file, "--slots", "24"], input=lines, capture_output=True, text=True, timeout=60, check=True)
    image = contents(file)
    words, room = len(image) // 8, 131_072
    tails = (bytes(64), bytes_of([0, words, 0, 0, 0, 0, 0, 0]), bytes_of([0, 0, room, 0, 0, 0, 0, 0]), bytes_of([0, words, room, 0, 0, 0, 0, 0]))
    for tail in tails:
        held = image + bytes(8 * room) + tail
        with open(grown, "wb") as out:
            out.write(held)
        checked = subprocess.run([wbl, "check", grown], capture_output=True, text=True, timeout=60, check=False)
        want(checked.returncode == 0 and all(f"1 {at} {row}" in checked.stdout for at, row in ROWS.items()), f"wbl check: {checked}")
        want(contents(grown) == held, "wbl check changed the file")
        ran = subprocess.run([wbl, "run", grown], input="begin\nput 2 1 9 09\ndraw 2\nstamp 2\ncycle\npoll 2\n", capture_output=True, text=True, timeout=60, check=False)
        want(ran.returncode == 0 and has_no_journal(contents(grown)), f"wbl run: {ran}")
        rows = rows_in(kv, grown)
        want(rows == {**ROWS, 9: "09"}, f"after wbl run: {rows}")
        with open(grown, "wb") as out:
            out.write(held)
        want(rows_in(kv, grown) == ROWS, "kv finds other rows")
    return f"{len(tails)} files that were being made longer were read by wbl and kv"


def images_of_before(kv, wbl, folder):
    """Images without a journal, as closing and as a crash leave them, are opened, and closing leaves such again, which wbl reads."""
    count = 0
    for layout in LAYOUTS:
        for end, rows in (("", {7: "6162"}), ("crash oldest\n", {7: "6162"}), ("crash newest\n", {7: "6162"})):
            file = os.path.join(folder, f"before{count}.img")
            made = [subprocess.run([wbl, "format", file, *layout], capture_output=True, text=True, check=False),
                    subprocess.run([wbl, "run", file], input=COMMIT + end, capture_output=True, text=True, check=False)]
            want(not any(it.returncode for it in made), f"{layout}: {made}")
            length = os.path.getsize(file)
            found = rows_with(kv, file, layout, "scan 1 0 100\nput 1 8 6364\n")
            want(found == rows, f"{layout} {end}: found {found}")
            want(os.path.getsize(file) == length, f"{layout} {end}: {os.path.getsize(file)} bytes once closed")
            checked = subprocess.run([wbl, "check", file], capture_output=True, text=True, check=False)
            want(checked.returncode == 0 and "1 7 6162" in checked.stdout and "1 8 6364" in checked.stdout, f"{layout} {end}: {checked}")
            count += 1
    return f"{count} images without a journal were opened, and closed again as such"


def rows_with(kv, file, layout, lines):
    """The rows that kv prints for these lines, in a store of this layout."""
    run = subprocess.run([kv, file, *layout], input=lines, capture_output=True, text=True, timeout=60, check=False)
    want(run.returncode == 0 and run.stdout.endswith("closed\n"), f"{layout}: {run}")
    return {int(words[1]): words[2] for words in map(str.split, run.stdout.splitlines()) if words[0] == "row"}


CASES = (cut_journals, journals_read, growing_files, images_of_before)
