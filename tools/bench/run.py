"""Times the proved agenda (crates/timed) beside a plain Rust program that collects all dates and sorts them (sorted.rs).

Needs rt and rustc. Both programs read the same lines, and must give the same answers.
"""
from jobs import AGENDAS, count_of, line_of
from programs import Pair


def main():
    pair = Pair("timed", "sorted")
    print(f"{'calendar':<28}{'dates':>9}{'agenda, ns each':>18}{'sorting, ns each':>18}")
    for name, end, phases in AGENDAS:
        count = count_of(end, phases)
        # as many lines as make a million dates or more, so that starting the program counts for little
        lines = 1 + 1_000_000 // count
        each = [seconds * 1e9 / (count * lines) for seconds in pair.seconds((line_of(end, phases) + "\n") * lines)]
        print(f"{name:<28}{count:>9}{each[0]:>18.1f}{each[1]:>18.1f}")


if __name__ == "__main__":
    main()
