"""Writes a set file to standard output.

    python3 tools/set_file.py WORKERS GROUP_SIZE GRAIN COST/PERIOD COST/PERIOD ...

It checks nothing: the reader of the file does.
"""
import struct
import sys


def main(arguments):
    workers, group_size, grain = map(int, arguments[:3])
    models = [tuple(map(int, model.split("/"))) for model in arguments[3:]]
    costs = [cost for cost, _ in models]
    periods = [period for _, period in models]
    words = [len(models), workers, group_size, grain, *costs, *periods]
    sys.stdout.buffer.write(struct.pack(f"<{len(words)}I", *words))


if __name__ == "__main__":
    main(sys.argv[1:])
