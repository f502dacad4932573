#!/usr/bin/env python3
"""Refuses each growth (each call that asks for memory) of the program in turn, and of each test that is made for it.

    tools/refusals.py

runs each command line of CASES with its first growth refused, then its second, until a run has no such growth. Each answer has to be the
full one, or status 3 with `snoop: NoMemory` on standard error and a beginning of the full output. `snoop threads` is also run with all
growths refused from one on, for each: it has to end. In the same way as the command lines it runs each test in a
module `memory`, from the test programs that `./check` or `rt test` has built; such a test has to pass each time. It needs `cc` and glibc.
The program is $SNOOP, or else the one that was built last (crates/snoop/out/snoop). It prints each wrong answer, then the counts, and ends
with 1 if there was one.
"""
import os
import pathlib
import subprocess
import sys
import tempfile

TOP = pathlib.Path(__file__).resolve().parent.parent
PROGRAM = os.environ.get("SNOOP", str(TOP / "crates" / "snoop" / "out" / "snoop"))
RACE = (TOP / "examples" / "upgrade_race.steps").read_bytes()
WORDS = (TOP / "examples" / "false_sharing_of_words.steps").read_bytes()
ROWS = (TOP / "examples" / "producer_and_consumer.rows").read_bytes()
ALONE = b"S,0,0,4\nE,0,0\nL,0,0\nL,0,64\n"
OUT_OF_MEMORY = (3, b"snoop: NoMemory\n")

CASES = [
    (["steps"], RACE),
    (["steps", "--protocol", "mesi"], RACE),
    (["steps"], b""),
    (["steps"], b"L,0,0\nX\n"),
    (["steps"], b"V,2,msi,2,4,64,1\n" + RACE),
    (["steps"], b"V,2,mesi,2,4,64,1\n" + RACE),
    (["steps", "--words", "8"], WORDS),
    (["steps", "--words", "8"], b"V,2,msi,2,4,64,8\n" + WORDS),
    (["steps", "--cores", "256", "--blocks", "64"], b'L,255,"64"\r\nO,255\r\nR,64\r\n'),
    (["run"], ROWS),
    (["run", "--cores", "16"], ROWS),
    (["run", "--words", "2"], ROWS + b"S,0,32,7\nL,1,32\n"),
    (["run", "--block-bytes", "4096", "--words", "64"], ROWS + b"S,0,4095,7\nL,1,4095\n"),
    (["run"], b"O,0\n"),
    (["run", "--serial"], ROWS),
    (["run", "--serial", "--words", "2"], ROWS + b"S,0,32,7\nL,1,32\n"),
    (["states", "--as", "csv"], RACE),
    (["states", "--as", "csv", "--words", "8"], WORDS),
    (["states", "--of", "rows", "--serial"], ROWS),
    (["states", "--as", "csv", "--of", "rows", "--block", "0"], ROWS),
    (["counts", "--by", "row"], RACE),
    (["counts", "--by", "core"], RACE),
    (["counts", "--by", "block", "--of", "rows", "--serial"], ROWS),
    (["counts", "--by", "word", "--words", "8"], WORDS),
    (["counts", "--every", "5"], RACE),
    (["draw"], RACE),
    (["draw", "--of", "rows"], ROWS),
    (["draw", "--as", "svg"], RACE),
    (["draw", "--as", "html", "--of", "rows", "--serial"], ROWS),
    (["lint", "--of", "rows"], RACE),
    (["threads", "--cores", "1"], ALONE),
    (["threads", "--cores", "1", "--words", "2"], ALONE + b"S,0,32,7\nL,0,32\n"),
    (["threads", "--cores", "1"], b"O,0\n"),
    (["table"], b""),
    (["table", "--which", "memory", "--protocol", "mesi"], b""),
    (["--help"], b""),
    (["steps", "--help"], b""),
    (["--version"], b""),
    (["steps", "--cores", "0"], b""),
    (["steps", "--block-bytes", "3"], b""),
    (["steps", "--cores", "many"], b""),
    (["no-command"], b""),
    ([], b""),
]


class Refuser:
    """Runs programs with one growth refused."""

    def __init__(self, folder):
        self.shim = os.path.join(folder, "refuse.so")
        self.met = os.path.join(folder, "met")
        subprocess.run(["cc", "-O1", "-shared", "-fPIC", "-o", self.shim, str(TOP / "tools" / "refuse.c")], check=True)

    def run(self, words, text, growth, for_good=False):
        """The status, output and errors of a run, and whether it reached the growth; growth 0 refuses none.

        for_good: all growths after it are refused too.
        """
        if os.path.exists(self.met):
            os.unlink(self.met)
        environment = dict(os.environ, LD_PRELOAD=self.shim, REFUSE=str(growth), REFUSED=self.met)
        if for_good:
            environment["REFUSE_ON"] = "1"
        done = subprocess.run(words, input=text, capture_output=True, env=environment, check=False, timeout=600)
        return (done.returncode, done.stdout, done.stderr), os.path.exists(self.met)

    def each(self, words, text):
        """The answer of a run for each growth refused."""
        growth = 1
        while True:
            answer, met = self.run(words, text, growth)
            if not met:
                return
            yield growth, answer
            growth += 1


def is_right(answer, full):
    status, output, errors = answer
    return answer == full or ((status, errors) == OUT_OF_MEMORY and full[1].startswith(output))


def wrong_in_threads(refuser, for_good):
    """Two cores: after status 0 the steps replay with none refused; else nothing was written. What the threads do is open.

    for_good: each growth from one on is refused; a seat that tries again for ever would not end.
    """
    words, wrong, count = [PROGRAM, "threads"], [], 0
    for growth in range(1, 400):
        try:
            (status, output, errors), met = refuser.run(words, ROWS, growth, for_good)
        except subprocess.TimeoutExpired:
            return [f"threads, growths from {growth} on: no end"], count + 1
        if not met:
            break
        count += 1
        replayed = subprocess.run([PROGRAM, "steps"], input=output, capture_output=True, check=False)
        done = (status, errors) == (0, b"") and replayed.returncode == 0 and b": refused" not in replayed.stdout
        refused = (status, errors) == OUT_OF_MEMORY and replayed.returncode == 0
        if not (done or refused):
            wrong.append(f"threads, growth {growth}: {(status, output, errors)}")
    return wrong, count


def tests():
    """The test programs that there are, each with its tests that are made for refused growths."""
    for program in sorted(TOP.glob("crates/*/out/*_tests")):
        if os.access(program, os.X_OK):
            listed = subprocess.run([program, "--list"], capture_output=True, text=True, check=False).stdout.splitlines()
            for name in listed:
                if "memory::" in name:
                    yield program, name.removesuffix(": test")


def main():
    if len(sys.argv) > 1:
        sys.exit(__doc__.strip())
    wrong, runs, count = [], 0, 0
    with tempfile.TemporaryDirectory() as folder:
        refuser = Refuser(folder)
        for words, text in CASES:
            full, _ = refuser.run([PROGRAM, *words], text, 0)
            count += 1
            for growth, answer in refuser.each([PROGRAM, *words], text):
                runs += 1
                if not is_right(answer, full):
                    wrong.append(f"{words}, growth {growth}: {answer}")
        for for_good in (False, True):
            found, met = wrong_in_threads(refuser, for_good)
            wrong, runs, count = wrong + found, runs + met, count + 1
        for program, name in tests():
            count += 1
            for growth, (status, output, errors) in refuser.each([program, name], b""):
                runs += 1
                if status != 0 or b"test result: ok" not in output:
                    wrong.append(f"{name}, growth {growth}: {(status, output, errors)}")
    print("\n".join(wrong + [f"{count} cases, {runs} growths refused, {len(wrong)} wrong answers"]))
    sys.exit(bool(wrong) or runs == 0)


if __name__ == "__main__":
    main()
