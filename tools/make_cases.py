"""Writes what the programs are run on in the gate, and what they must print.

crates/cases has many set files in hexadecimal; crates/print has one of the examples; crates/served has lists of calls
on queues; crates/play has a script of calendars, rosters and sets; crates/timed has agendas and
crates/paced has rosters that tools/bench times. Run it at the repository's root. What is expected comes from
tools/reference.py, tools/queue_reference.py, tools/calendar_reference.py and tools/roster_reference.py, and for
crates/paced from tools/bench/dispatch.rs, which rustc builds; never from the proved programs.
"""
import random
import struct
from itertools import chain
from pathlib import Path
from tempfile import TemporaryDirectory

from bench.jobs import AGENDAS, ROSTERS, count_of, line_of
from bench.programs import answers_of, build_plain
from calendar_reference import checksum_of
from laws import told, totals_of
from piles import piles
from queue_reference import KEYS, answer_of
from reference import text_of
from roster_reference import answers_of as answers_of_script
from seasons import drawn_season, edges as edges_of_seasons, refused_sets


def words(*numbers):
    return struct.pack(f"<{len(numbers)}I", *numbers)


def set_file(workers, group_size, grain, costs, periods=None):
    periods = [grain] * len(costs) if periods is None else periods
    return words(len(costs), workers, group_size, grain, *costs, *periods)


def worked():
    """Sets whose weights are given with the grain as period."""
    yield set_file(2, 2, 10, [6, 6, 6])
    yield set_file(3, 2, 12, [8])
    yield set_file(3, 2, 12, [9])
    yield set_file(3, 2, 12, [8, 8, 8])
    yield set_file(2, 2, 10, [6, 6, 8])
    yield set_file(2, 2, 10, [6, 6, 9])
    yield set_file(2, 2, 10, [10, 3])
    yield set_file(2, 1, 10, [4, 4, 4])
    yield set_file(2, 1, 10, [6, 6, 6])
    yield set_file(2, 1, 10, [6, 6, 1])
    yield set_file(2, 1, 10, [6, 6])
    yield set_file(1, 1, 1, [1])
    yield set_file(32, 32, 100800, [100800] * 32 + [1])
    yield set_file(32, 1, 100800, [50401] * 32)
    yield set_file(32, 16, 100800, [48000] * 64)


def grouped():
    """Sets whose groups differ in their first intervals."""
    # workers that are full, that are idle behind their runs, and that have no model; groups at rest
    yield set_file(1, 1, 1, [1])
    yield set_file(1, 1, 100800, [100800])
    yield set_file(1, 1, 100800, [1])
    yield set_file(32, 1, 100800, [1])
    yield set_file(32, 32, 100800, [1])
    yield set_file(5, 2, 12, [8])
    yield set_file(5, 2, 12, [12, 9, 5, 5, 5])
    yield set_file(4, 2, 12, [12, 12, 12, 12])
    yield set_file(2, 1, 100800, [50401, 50401], [100800, 100800])
    # a heavy model and a group of workers end their intervals by themselves
    yield set_file(3, 2, 12, [4, 3, 6, 1], [4, 6, 12, 2])
    yield set_file(4, 1, 12, [1, 1, 1, 1], [4, 3, 12, 2])
    # runs by deadline, and by number where deadlines are equal
    yield set_file(1, 1, 12, [1, 1, 1], [12, 6, 4])
    yield set_file(1, 1, 12, [2, 1, 2, 1], [12, 6, 12, 6])
    yield set_file(1, 1, 10, [3, 2, 2], [10, 10, 5])
    # a run that is cut off where the interval ends, or before a second piece, and one that gets nothing
    yield set_file(1, 1, 20, [10, 1], [20, 2])
    yield set_file(1, 1, 20, [1, 9, 1], [2, 20, 20])
    yield set_file(2, 2, 20, [1, 9, 3, 2], [2, 20, 5, 20])
    yield set_file(3, 3, 20, [14, 8, 9, 1, 10, 2], [20, 20, 20, 20, 20, 4])
    # a worker with a first and a second piece alone, and two with nothing between the two
    yield set_file(3, 3, 10, [7, 7, 7])
    yield set_file(3, 3, 10, [6, 9, 9])
    yield set_file(4, 4, 10, [7, 9, 9, 9], [10, 10, 10, 10])
    # the shortest interval is that of a divided model
    yield set_file(2, 2, 12, [8, 3, 6], [12, 6, 12])
    # 32 workers with a divided model on each, and the longest texts that were found, with one group and with 32
    yield set_file(32, 32, 64, [33] * 62)
    yield set_file(32, 32, 100800, [49800] * 64)
    yield set_file(32, 1, 100800, [50000] * 64)


def damaged():
    good = set_file(2, 2, 10, [6, 6, 6])
    for size in range(len(good)):
        yield good[:size]
    yield good + b"\0"
    yield good + good
    top = 2**32 - 1
    for models in (0, 65, top):
        yield words(models, 2, 2, 10) + good[16:]
    for workers in (0, 33, top):
        yield words(3, workers, 2, 10) + good[16:]
    for group_size in (0, 3, top):
        yield words(3, 2, group_size, 10) + good[16:]
    for grain in (0, 100801, top):
        yield words(3, 2, 2, grain) + good[16:]
    # the first fault wins
    yield words(0, 0, 0, 0)
    yield words(1, 0, 0, 0)
    yield words(1, 1, 0, 0)
    yield words(1, 1, 1, 0)
    yield words(1, 1, 1, 1)
    yield words(1, 1, 1, 1, 0, 0, 0)
    yield words(1, 1, 1, 1, 0, 0)
    yield words(1, 1, 1, 1, 0, 1)
    yield words(2, 1, 1, 10, 6, 6, 10, 3)
    yield words(2, 1, 1, 10, 0, 6, 5, 3)
    yield words(2, 1, 1, 10, 6, 0, 5, 5)
    yield words(2, 1, 1, 10, 5, 6, 5, 5)
    yield words(1, 1, 1, 10, 11, 20)
    yield words(1, 1, 1, 10, top, top)


def drawn(source, count):
    """Sets of all sizes, some too heavy; periods are divisors of the grain."""
    for _ in range(count):
        workers = source.randint(1, source.choice([2, 4, 8, 32]))
        group_size = source.randint(1, workers)
        grain = source.choice([1, 6, 12, 60, 360, 5040, 10080, 100800])
        divisors = [t for t in range(1, grain + 1) if grain % t == 0]
        models = source.randint(1, source.choice([4, 16, 64]))
        fill = source.choice([0.2, 0.5, 0.8, 1.0])
        periods = [source.choice(divisors) for _ in range(models)]
        costs = [max(1, min(t, round(t * fill * source.random()))) for t in periods]
        yield set_file(workers, group_size, grain, costs, periods)


def put(model, moment, parts):
    return f"+{model},{moment},{parts}"


def edges():
    """Lists of calls at the edges of what a queue is lent, and numbers at the edges of their widths."""
    for order in KEYS:
        yield f"{order} 0 - {put(1, 1, 1)} -"
        yield f"{order} 1 - {put(1, 1, 1)} {put(2, 0, 1)} - - {put(2, 0, 1)} - - -"
        yield f"{order} 2 {put(2, 7, 5)} {put(1, 7, 5)} {put(3, 0, 0)} - {put(3, 0, 0)} - - -"
        yield f"{order} 3 {put(9, 2**32 - 1, 0)} {put(2**32 - 1, 0, 2**64 - 1)} {put(1, 0, 2**64 - 1)} - - -"
        # numbers that narrower or signed words would not keep apart
        models = zip([2**31, 2**16, 1, 2**8, 2**32 - 1], [2**32, 2**63, 2**64 - 1, 2**32 - 1, 0])
        yield f"{order} 5 {' '.join(put(model, 0, parts) for model, parts in models)} - - - - -"
        moments = enumerate([2**31, 2**16, 2**32 - 1, 2**8, 1], start=1)
        yield f"{order} 5 {' '.join(put(model, moment, 0) for model, moment in moments)} - - - - -"
        for moments in (range(64), range(63, -1, -1), [7] * 64):
            things = [put(i + 1, moment, 64 - i) for i, moment in enumerate(moments)]
            yield f"{order} 64 {' '.join(things)} {put(1, 1, 1)}{' -' * 65}"
        yield f"{order} 64 {' '.join([put(5, 5, 5)] * 64)}{' -' * 64}"


def drawn_calls(source, order):
    """Calls with many ties: few moments, and few models or few parts."""
    slots = source.choice([1, 2, 3, 7, 8, 20, 64])
    moments, models, most_parts = source.choice([(2, 64, 1), (3, 3, 3), (1, 64, 2), (20, 64, 100)])
    calls = []
    for _ in range(source.randint(1, 3 * slots)):
        model, moment = source.randint(1, models), source.randrange(moments)
        # by model alone, it is open which of two runs comes first that differ in their parts alone
        parts = 64 - model if order == "model" else source.randint(1, most_parts)
        calls += source.choices([[put(model, moment, parts)], ["-"], ["-"] * source.randint(0, slots + 1)], [20, 9, 1])[0]
    calls += ["-"] * source.choice([slots, slots // 2])
    return f"{order} {slots} {' '.join(calls)}"


def script():
    """Calendars with questions, rosters and sets at the edges of what they may be, and drawn rosters."""
    source = random.Random(2026)
    return [*chain(*piles(), *edges_of_seasons(), *refused_sets(), *(drawn_season(source) for _ in range(2000)))]


def dispatched(text):
    """What the dispatcher in plain Rust answers to lines that name rosters."""
    with TemporaryDirectory() as folder:
        program = Path(folder) / "dispatch"
        build_plain("dispatch", program)
        return answers_of(program, text)


def main():
    files = [*worked(), *damaged(), *grouped(), *drawn(random.Random(2026), 200)]
    with open("crates/cases/stdin", "w") as stdin:
        stdin.writelines(data.hex() + "\n" for data in files)
    with open("crates/cases/stdout", "w") as stdout:
        stdout.writelines(text_of(data) for data in files)
    sample = Path("examples/week.set").read_bytes()
    with open("crates/print/stdin", "wb") as stdin:
        stdin.write(sample)
    with open("crates/print/stdout", "w") as stdout:
        stdout.write(text_of(sample))
    source = random.Random(2026)
    lines = [*edges(), *(drawn_calls(source, order) for order in KEYS for _ in range(50))]
    with open("crates/served/stdin", "w") as stdin:
        stdin.writelines(line + "\n" for line in lines)
    with open("crates/served/stdout", "w") as stdout:
        stdout.writelines(map(answer_of, lines))
    lines = script()
    answers = [*answers_of_script(lines)]
    with open("crates/play/stdin", "w") as stdin:
        stdin.writelines(line + "\n" for line in lines)
    with open("crates/play/stdout", "w") as stdout:
        stdout.writelines(answer + "\n" for answer in answers)
    print("play:", told(totals_of(lines, answers)))
    jobs = [(end, phases) for _, end, phases in AGENDAS if count_of(end, phases) < 5_000]
    with open("crates/timed/stdin", "w") as stdin:
        stdin.writelines(line_of(*job) + "\n" for job in jobs)
    with open("crates/timed/stdout", "w") as stdout:
        stdout.writelines(checksum_of(*job) for job in jobs)
    text = "".join(f"{plan} {way} 1000\n" for plan, way, _, _ in ROSTERS)
    with open("crates/paced/stdin", "w") as stdin:
        stdin.write(text)
    with open("crates/paced/stdout", "w") as stdout:
        stdout.write(dispatched(text))


if __name__ == "__main__":
    main()
