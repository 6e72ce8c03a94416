#!/usr/bin/env python3
"""Mutates derivations and asks leo3_check of each: the answer must be one of its lines with its exit code, never a crash.

usage: tools/fuzz_check.py [ROUNDS [SEED]]

For each problem of examples/ that is refuted within 20 turns, ROUNDS (100 unless given) mutants of the prover's own output are checked: a byte
is changed, a piece is cut out or written twice, two lines change places, or a word is put in the place of another. It prints
how often each answer came, and ends with 1 where an answer is none of the program's.
"""
import collections
import pathlib
import random
import re
import subprocess
import sys
import tempfile

TOP = pathlib.Path(__file__).resolve().parent.parent
ANSWERS = {0: r"accepted\n", 1: r"refused at (line l\d+: [a-z]+|byte \d+)\n", 2: r"% SZS status InputError for .*\n% leo3: .*\n"}


def run(program, *words):
    """Runs a program of the repository, built before where that is needed."""
    return subprocess.run([TOP / "bin/program", program, *words], capture_output=True, timeout=120)


def mutant(text, dice):
    """Returns the text with one change."""
    words = re.findall(rb"[A-Za-z0-9_$]+", text)
    at, end = sorted(dice.randrange(len(text) + 1) for _ in "ab")
    kind = dice.randrange(5)
    if kind == 0:
        return text[:at] + bytes([dice.randrange(256)]) + text[at + 1 :]
    if kind == 1:
        return text[:at] + text[min(end, at + 40) :]
    if kind == 2:
        return text[:at] + text[at : min(end, at + 200)] * 2 + text[min(end, at + 200) :]
    if kind == 3:
        lines = text.splitlines(True)
        one, other = dice.randrange(len(lines)), dice.randrange(len(lines))
        lines[one], lines[other] = lines[other], lines[one]
        return b"".join(lines)
    return text.replace(dice.choice(words), dice.choice(words), 1)


def main(rounds=100, seed=1):
    dice, counts, bad = random.Random(seed), collections.Counter(), 0
    with tempfile.TemporaryDirectory() as folder:
        proof = pathlib.Path(folder) / "proof"
        for problem in sorted((TOP / "examples").glob("*.p")):
            answer = run("leo3", "--turns", "20", problem)
            if answer.returncode != 0:
                continue
            for _ in range(rounds):
                proof.write_bytes(mutant(answer.stdout, dice))
                got = run("leo3_check", problem, proof)
                wanted = ANSWERS.get(got.returncode)
                counts[got.stdout.split(b":")[0].split(b" l")[0].split(b"byte")[0].strip()] += 1
                if not wanted or not re.fullmatch(wanted, got.stdout.decode(errors="replace")):
                    bad += 1
                    print(f"{problem.name}: exit code {got.returncode}, output {got.stdout!r}")
    for said, count in counts.most_common():
        print(f"{count} {said.decode(errors='replace')}")
    return 1 if bad else 0


if __name__ == "__main__":
    sys.exit(main(*map(int, sys.argv[1:])))
