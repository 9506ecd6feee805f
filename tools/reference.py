"""A second implementation of reading, placing and printing a set file, to compare with.

    python3 tools/reference.py FILE ..

prints of each file what the program `print` should print of it; with no file, of standard input.
It shares no code with the proved crates, but its author wrote those too: it guards against slips, not against
a rule that was misunderstood.
"""
import struct
import sys
from pathlib import Path


class Refused(Exception):
    def __init__(self, number, layer, place):
        super().__init__(f"refused {number} {layer} {place}\n")


def read_set(data):
    """The sizes, costs and periods of a set file, or its first fault."""
    if len(data) < 16:
        raise Refused(1, "file", len(data))
    models, workers, group_size, grain = struct.unpack_from("<4I", data)
    limits = [(models, 64), (workers, 32), (group_size, workers), (grain, 100800)]
    for place, (size, most) in enumerate(limits, start=1):
        if not 1 <= size <= most:
            raise Refused(3, "set", place)
    size = 16 + 8 * models
    if len(data) < size:
        raise Refused(1, "file", len(data))
    if len(data) > size:
        raise Refused(2, "file", size)
    costs = struct.unpack_from(f"<{models}I", data, 16)
    periods = struct.unpack_from(f"<{models}I", data, 16 + 4 * models)
    for model, (cost, period) in enumerate(zip(costs, periods), start=1):
        if period == 0 or grain % period:
            raise Refused(4, "set", model)
        if not 1 <= cost <= period:
            raise Refused(5, "set", model)
    return workers, group_size, grain, costs, periods


def file_of(sizes, costs, periods):
    """The set file of these figures, which may be at fault."""
    return struct.pack(f"<{4 + 2 * len(costs)}I", len(costs), *sizes, *costs, *periods)


def checked(sizes, costs, periods):
    """The sizes, costs and periods of a set, or the first fault of these figures."""
    if len(costs) != len(periods):
        raise Refused(3, "set", 1)
    return read_set(file_of(sizes, costs, periods))


def written(sizes, costs, periods, room):
    """What is answered where the file of a set is to be written to so many bytes: its size and its digits."""
    checked(sizes, costs, periods)
    data = file_of(sizes, costs, periods)
    if room < len(data):
        raise Refused(1, "file", room)
    return f"{len(data)} {data.hex()}"


def weights_of(grain, costs, periods):
    return [cost * (grain // period) for cost, period in zip(costs, periods)]


def heavy_in(workers, group_size, grain, weights):
    """Which models are heavy."""
    return [
        group_size < workers and weight * (group_size + 1) > group_size * grain
        for weight in weights
    ]


def place(workers, group_size, grain, costs, periods):
    """The pieces of each model, as a list of (worker, size)."""
    weights = weights_of(grain, costs, periods)
    heavy = heavy_in(workers, group_size, grain, weights)
    alone = sum(heavy)
    if alone > workers or (alone == workers and not all(heavy)):
        raise Refused(6, "placement", alone)
    pieces = [None] * len(weights)
    next_alone = iter(range(1, alone + 1))
    for i, weight in enumerate(weights):
        if heavy[i]:
            pieces[i] = [(next(next_alone), weight)]
    free = {worker: grain for worker in range(1, workers + 1)}
    here = alone + 1
    for i, weight in enumerate(weights):
        if heavy[i]:
            continue
        if weight <= free[here]:
            pieces[i] = [(here, weight)]
            free[here] -= weight
            continue
        if here == workers:
            raise Refused(7, "placement", i + 1)
        last_of_group = (here - alone) % group_size == 0
        if last_of_group or free[here] == 0:
            pieces[i] = [(here + 1, weight)]
            free[here + 1] -= weight
        else:
            rest = weight - free[here]
            pieces[i] = [(here, free[here]), (here + 1, rest)]
            free[here] = 0
            free[here + 1] -= rest
        here += 1
    return pieces


def groups_of(workers, group_size, grain, costs, periods):
    """The workers of each group."""
    alone = sum(heavy_in(workers, group_size, grain, weights_of(grain, costs, periods)))
    others = range(alone + 1, workers + 1)
    return [range(worker, worker + 1) for worker in range(1, alone + 1)] + [
        others[start : start + group_size] for start in range(0, len(others), group_size)
    ]


def held_on(worker, ticks, grain, costs, periods, pieces):
    """From where to where models have a worker in these first ticks, as (start, end, model)."""
    opens, closes = 0, grain * ticks
    runs = []
    for model, shares in enumerate(pieces, start=1):
        for place, (at, size) in enumerate(shares):
            if at != worker:
                continue
            if len(shares) == 1:
                runs.append((periods[model - 1], model))
            elif place == 0:
                opens = size * ticks
                yield 0, opens, model
            else:
                closes = (grain - size) * ticks
                yield closes, grain * ticks, model
    for run in runs:
        start = opens + sum(costs[model - 1] * grain for deadline, model in runs if (deadline, model) < run)
        end = min(start + costs[run[1] - 1] * grain, closes)
        if start < end:
            yield start, end, run[1]


def row_of(held, parts):
    """The spans of a worker, as (end, model): model 0 fills what nobody holds."""
    spans, past = [], 0
    for start, end, model in [*sorted(held), (parts, parts, None)]:
        if past < start:
            spans.append((start, 0))
        if start < end:
            spans.append((end, model))
        past = end
    return spans


def group_lines(group, workers, grain, costs, periods, pieces):
    """What is printed of a group: its first interval, from 0 to the first later date of one of its models."""
    ticks = min((period for period, shares in zip(periods, pieces) if shares[0][0] in workers), default=None)
    if ticks is None:
        yield f"rest {group}"
        return
    yield f"group {group} 0 {ticks}"
    for worker in workers:
        row = row_of(held_on(worker, ticks, grain, costs, periods, pieces), grain * ticks)
        yield " ".join(["row", str(worker), *(f"{end}:{model}" for end, model in row)])


def text_of(data):
    """All that is printed of a file."""
    try:
        workers, group_size, grain, costs, periods = read_set(data)
        pieces = place(workers, group_size, grain, costs, periods)
    except Refused as refused:
        return str(refused)
    loads = [0] * (workers + 1)
    for shares in pieces:
        for worker, size in shares:
            loads[worker] += size
    lines = [f"plan {len(costs)} {workers} {group_size} {grain}"]
    lines += [f"load {worker} {loads[worker]}" for worker in range(1, workers + 1)]
    lines += [
        f"piece {model} {worker} {size}"
        for model, shares in enumerate(pieces, start=1)
        for worker, size in shares
    ]
    for group, group_workers in enumerate(groups_of(workers, group_size, grain, costs, periods), start=1):
        lines += group_lines(group, group_workers, grain, costs, periods, pieces)
    lines.append("end")
    return "".join(line + "\n" for line in lines)


def main(names):
    files = [Path(name).read_bytes() for name in names] if names else [sys.stdin.buffer.read()]
    sys.stdout.writelines(map(text_of, files))


if __name__ == "__main__":
    main(sys.argv[1:])
