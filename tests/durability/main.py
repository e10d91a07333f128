"""Kills kv, cuts its power and makes its writes fail, and looks for each row that it acknowledged. It also tries what people do to
kv: closed streams, a failing output, a full disk, files of others, wrong lines. FILE of wbl is tested in the same way.

It takes minutes, and needs the programs that ./build makes, and strace for power failures and failing writes. It prints a line for
each test, LOST if a row that was acknowledged isn't found, and last `N passed, N failed`; if one failed it ends with 1.
"""
import argparse
import os
import random
import shutil
import sys
import tempfile

import cut
import fail
import fresh
import image
import kill
import power
import protocol
import readme
import shell
import twice
from store import Lost

TOP = os.path.dirname(os.path.dirname(os.path.dirname(os.path.abspath(__file__))))


def control(run, spoil, said):
    """A device that does less than it should must be found out."""
    def test(kv, folder, rng, images):
        try:
            run(kv, folder, rng, images, spoil=spoil)
        except Lost:
            return f"a device that leaves out {said} was found out"
        raise Lost(f"a device that leaves out {said} wasn't found out")
    return test


CONTROLS = (("control_words", power.run, power.without_last_words, "the last word of each entry"),
            ("control_syncs", power.run, power.without_syncs, "every second sync"),
            ("control_write_back", twice.run, twice.without_write_back, "what an opening writes back"))


def passes(name, test):
    """Runs a test in a folder of its own, and prints what it found."""
    with tempfile.TemporaryDirectory() as folder:
        try:
            print(f"{name}: {test(folder)}", flush=True)
            return True
        except Lost as lost:
            print(f"{name}: LOST: {lost}", flush=True)
            return False


def main():
    parser = argparse.ArgumentParser(prog="./durability", description=__doc__, formatter_class=argparse.RawDescriptionHelpFormatter)
    parser.add_argument("--kv", default=os.path.join(TOP, "bin", "kv"), help="the program, by default bin/kv")
    parser.add_argument("--wbl", default=os.path.join(TOP, "bin", "wbl"), help="the other program, by default bin/wbl")
    parser.add_argument("--kills", type=int, default=200, help="kills at random instants")
    parser.add_argument("--fresh", type=int, default=100, help="kills of a first opening")
    parser.add_argument("--power", type=int, default=500, help="images of a power failure")
    parser.add_argument("--twice", type=int, default=3000, help="images of a power failure while the file is opened after a kill or a failed sync")
    parser.add_argument("--fail", type=int, default=200, help="how many writes and how many syncs fail or stop kv at most, each in a run")
    parser.add_argument("--seed", type=int, default=1, help="the same seed kills at the same instants")
    parser.add_argument("--only", nargs="*", metavar="NAME", help="these tests alone, such as closed_streams")
    parser.add_argument("--short", action="store_true", help="a tenth of each")
    words = parser.parse_args()
    part = 10 if words.short else 1
    tests = [("kill", kill.run, words.kills // part), ("fresh", fresh.run, words.fresh // part)]
    if shutil.which("strace"):
        tests += [("power", power.run, words.power // part), ("fail", fail.run, words.fail // part), ("stops", fail.stops, words.fail // part), ("twice", twice.run, words.twice // part)]
        tests += [(name, control(run, spoil, said), 500) for name, run, spoil, said in CONTROLS]
    else:
        print("strace is missing: no power failures, and no failing writes")
    kv = os.path.abspath(words.kv)
    tests = [(name, lambda folder, test=test, count=count: test(kv, folder, random.Random(words.seed), count)) for name, test, count in tests]
    tests += [(case.__name__, lambda folder, case=case: case(kv, folder)) for case in (*shell.CASES, *protocol.CASES, *readme.CASES)]
    wbl = os.path.abspath(words.wbl)
    tests += [(case.__name__, lambda folder, case=case: case(kv, wbl, folder)) for case in cut.CASES]
    tests += [(f"wbl_{case.__name__}", lambda folder, case=case: case(wbl, kv, folder)) for case in image.CASES]
    failed = sum(not passes(name, test) for name, test in tests if not words.only or name in words.only)
    chosen = sum(not words.only or name in words.only for name, _ in tests)
    print(f"{chosen - failed} passed, {failed} failed")
    sys.exit(failed > 0)


main()
