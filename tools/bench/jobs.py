"""Agendas and rosters that are timed."""

# periods of a day to a month in hours, with their firsts spread over the day
MIXED = [(i * 5 % 24, 24 + i * 11) for i in range(64)]

# for each agenda a name, the tick before which its dates lie, and the first date and the period of each model
AGENDAS = [
    ("64 models, 100 ticks", 100, MIXED),
    ("64 models, 1,000 ticks", 1_000, MIXED),
    ("64 models, 10,000 ticks", 10_000, MIXED),
    ("64 models, 100,000 ticks", 100_000, MIXED),
    ("64 models, 1,000,000 ticks", 1_000_000, MIXED),
    ("64 models at once", 1_000_000, [(0, 100)] * 64),
    ("64 models each tick", 10_000, [(0, 1)] * 64),
    ("64 models, 6 dates each", 2**30, [(7, 200_000_000)] * 64),
    ("8 models, mixed", 1_000_000, MIXED[:8]),
    ("1 model", 1_000_000, [(3, 7)]),
]

# for each roster a plan, how it is called, how often, and how many such lines make a long enough run
ROSTERS = [
    ("wide", "advance", 500_000, 1),
    ("grouped", "advance", 2_000_000, 1),
    ("small", "advance", 4_000_000, 1),
    ("wide", "open", 200_000, 1),
    ("grouped", "open", 1_000_000, 1),
    ("small", "open", 2_000_000, 1),
    ("wide", "season", 1_000, 200),
    ("grouped", "season", 1_000, 500),
    ("small", "season", 1_000, 500),
]


def count_of(end, phases):
    return sum(len(range(first, end, period)) for first, period in phases)


def line_of(end, phases):
    """What both programs read: the tick, a table that is just long enough, and the phases."""
    return " ".join([str(end), str(count_of(end, phases)), *(f"{first},{period}" for first, period in phases)])
