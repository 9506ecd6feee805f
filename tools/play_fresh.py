"""Draws fresh scripts, plays them by a built program `play` and by the second dispatcher, and checks the answers.

    python3 tools/play_fresh.py PROGRAM [SEED [COUNT]]

PROGRAM is the built program, say crates/play/out/play. Each batch has 500 rosters, and a seed of its own: SEED, 1 if left
out, and those after it. There are COUNT batches, or, if it is left out, as many as there are until it is interrupted. After
each batch it prints what has been compared so far. At the first difference, or the first promise that is not kept, it
keeps the script in the current folder, and ends with status 1.
"""
import random
import subprocess
import sys
from collections import Counter
from itertools import chain, count, islice, zip_longest
from pathlib import Path

from laws import Broken, told, totals_of
from roster_reference import answers_of
from seasons import drawn_season

ROSTERS = 500


def played(program, text):
    """The answers of the program, and why it failed if it did."""
    run = subprocess.run([program], input=text, capture_output=True, text=True)
    return run.stdout.splitlines(), f"it ended with status {run.returncode}: {run.stderr.strip()}" if run.returncode else None


def fault_of(program, lines, totals):
    """What is wrong with the answers to a script, or None; what was played is added to the totals."""
    answers, failure = played(program, "".join(f"{line}\n" for line in lines))
    for number, (answer, wanted) in enumerate(zip_longest(answers, answers_of(lines)), start=1):
        if answer != wanted:
            return failure or f"line {number} is answered by {answer!r} and not by {wanted!r}"
    try:
        totals += totals_of(lines, answers)
    except Broken as broken:
        return str(broken)
    return failure


def compare(program, seeds):
    totals = Counter()
    for seed in seeds:
        source = random.Random(seed)
        lines = [*chain(*(drawn_season(source) for _ in range(ROSTERS)))]
        fault = fault_of(program, lines, totals)
        if fault:
            kept = Path(f"play-{seed}.script")
            kept.write_text("".join(f"{line}\n" for line in lines))
            sys.exit(f"seed {seed}: {fault}; the script is in {kept}")
        totals["lines"] += len(lines)
        print(f"seed {seed}: {totals['lines']} lines agree: {told(totals)}", flush=True)


def main(arguments):
    program, *numbers = arguments or [""]
    if not Path(program).is_file() or len(numbers) > 2 or not all(number.isdecimal() for number in numbers):
        sys.exit("usage: python3 tools/play_fresh.py PROGRAM [SEED [COUNT]]")
    first, most = [*map(int, numbers), *[1, None][len(numbers):]]
    try:
        compare(Path(program).resolve(), islice(count(first), most))
    except KeyboardInterrupt:
        pass
    except OSError as fault:
        sys.exit(str(fault))


if __name__ == "__main__":
    main(sys.argv[1:])
