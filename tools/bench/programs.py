"""A proved program and a plain Rust program that answer the same lines, built and timed. Needs rt and rustc."""
import subprocess
from pathlib import Path
from time import perf_counter

HERE = Path(__file__).resolve().parent


def build_plain(name, program):
    """Builds a plain Rust program, for the processor that rt builds for."""
    options = ["-O", "--edition", "2024", "-C", "target-cpu=x86-64-v2"]
    subprocess.run(["rustc", *options, HERE / f"{name}.rs", "-o", program], check=True)


def answers_of(program, text):
    return subprocess.run([program], input=text, capture_output=True, check=True, text=True).stdout


class Pair:
    """A proved program, by the name of its crate, and a plain one, by the name of its file."""

    def __init__(self, proved, plain):
        crate = HERE.parents[1] / "crates" / proved
        subprocess.run(["rt", "run"], cwd=crate, stdin=subprocess.DEVNULL, check=True, capture_output=True)
        self.programs = [crate / "out" / proved, crate / "out" / plain]
        build_plain(plain, self.programs[1])

    def seconds(self, text):
        """The shortest of five runs of each, by turns. Both must give the same answers."""
        times, answers = ([], []), set()
        for _ in range(5):
            for program, taken in zip(self.programs, times):
                start = perf_counter()
                answers.add(answers_of(program, text))
                taken.append(perf_counter() - start)
        assert len(answers) == 1, f"the answers differ: {text[:80]}"
        return [min(taken) for taken in times]
