"""Runs the built program `print` as a shell would, on input and output that its sample in the gate does not have.

    python3 tools/try_print.py [PROGRAM]

With no PROGRAM it runs crates/print/out/print, where `rt run` leaves it. Each run has 10 seconds and 64 MiB, and each
has a line that says whether its text, its status and its message were as they should be. The status is 1 where one
was not, and 2 where there is no such program.
"""
import os
import signal
import subprocess
import sys
import tempfile
from pathlib import Path

from reference import text_of

ROOT = Path(__file__).resolve().parent.parent
SAMPLE = ROOT / "examples/three-models.set"
SECONDS, KIBIBYTES = 10, 64 * 1024
USAGE, INPUT, OUTPUT = "usage: print < FILE\n", "Error: cannot read standard input\n", "Error: cannot write to standard output\n"


def runs():
    """What is run, as (name, shell command, text, status, what standard error begins with): P is the program, S a set file, R rubbish."""
    sound = SAMPLE.read_bytes()
    text, long = text_of(sound), text_of(sound + b"\0")
    yield "a set file", '"$P" < "$S"', text, 0, ""
    yield "a set file, byte by byte", 'dd if="$S" bs=1 status=none | "$P"', text, 0, ""
    yield "no bytes", '"$P" < /dev/null', text_of(b""), 0, ""
    yield "a megabyte of rubbish", '"$P" < "$R"', text_of(rubbish()), 0, ""
    yield "how much of it is left", '{ "$P" > /dev/null && cat; } < "$R" | wc -c', f"{len(rubbish()) - 529}\n", 0, ""
    yield "zeros without an end", '"$P" < /dev/zero', text_of(bytes(1000)), 0, ""
    yield "rubbish without an end", 'yes rubbish | "$P"', text_of(b"rubbish\n" * 100), 0, ""
    yield "zeros without an end behind a set file", 'cat "$S" /dev/zero | "$P"', long, 0, ""
    yield "a folder", '"$P" < /', "", 1, INPUT
    yield "closed input", '"$P" <&-', "", 1, INPUT
    yield "closed output", '"$P" < "$S" >&-', "", 1, OUTPUT
    yield "a full device", '"$P" < "$S" > /dev/full', "", 1, OUTPUT
    yield "a pipe that nobody reads", 'mkfifo F; exec 3<>F 4>F 3<&-; "$P" < "$S" >&4', "", 1, OUTPUT
    yield "everything closed", '"$P" <&- >&- 2>&-', "", 1, ""
    yield "an argument", '"$P" "$S"', "", 2, USAGE
    yield "an argument that is empty", '"$P" "" < "$S"', "", 2, USAGE
    yield "an argument that is no text", '"$P" "$(printf "\\377")" < "$S"', "", 2, USAGE
    yield "an argument, and standard error closed", '"$P" --help 2>&-', "", 2, ""


def rubbish():
    return b"rubbish\n" * 131_072


def run(command, program, folder):
    """The text, the status and the message of a command, or None where it does not end."""
    names = {"P": str(program), "S": str(SAMPLE), "R": str(folder / "R")}
    limited = f"ulimit -v {KIBIBYTES}; {command}"
    shell = subprocess.Popen(
        ["sh", "-c", limited], cwd=folder, env={**os.environ, **names}, start_new_session=True,
        stdin=subprocess.DEVNULL, stdout=subprocess.PIPE, stderr=subprocess.PIPE,
    )
    try:
        text, message = shell.communicate(timeout=SECONDS)
    except subprocess.TimeoutExpired:
        os.killpg(shell.pid, signal.SIGKILL)
        shell.communicate()
        return None
    return text.decode(errors="replace"), shell.returncode, message.decode(errors="replace")


def fault_of(found, text, status, message):
    """What was wrong, or None."""
    if found is None:
        return f"does not end in {SECONDS} seconds"
    if found[1] != status:
        return f"status {found[1]} and not {status}, with the message {found[2]!r}"
    if found[0] != text:
        return f"the text {found[0]!r}"
    # what failed stands in the first line, and behind it the system's reason
    told = found[2].startswith(message) if status == 1 and message else found[2] == message
    return None if told else f"the message {found[2]!r}"


def main(arguments):
    program = Path(arguments[0] if arguments else ROOT / "crates/print/out/print").resolve()
    if not os.access(program, os.X_OK) or program.is_dir():
        print(f"there is no program {program}: run rt run in crates/print first", file=sys.stderr)
        return 2
    wrong = False
    with tempfile.TemporaryDirectory() as name:
        (Path(name) / "R").write_bytes(rubbish())
        for what, command, *expected in runs():
            fault = fault_of(run(command, program, Path(name)), *expected)
            print(f"{what}: {fault or 'right'}")
            wrong = wrong or fault is not None
    return 1 if wrong else 0


if __name__ == "__main__":
    sys.exit(main(sys.argv[1:]))
