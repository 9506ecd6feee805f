"""Scripts for the program `play`: rosters at the edges of what they are asked, and those that are drawn.

    python3 tools/seasons.py SEED COUNT

prints a script of so many drawn rosters.
"""
import random
import sys
from itertools import product

from calendar_reference import END
from reference import Refused
from roster_reference import KEYS, Plan
from scripts import SPACINGS, TOP, Calendars, listed, parse

MANNERS = ("open", "follow")
LENT = "512 64"


def figures(sizes, models):
    sizes = " ".join(map(str, sizes))
    return f"{sizes} {listed(cost for cost, _ in models)} {listed(period for _, period in models)}"


def season(manner, order, sizes, models, calendar, calls):
    """The lines of a roster, from its set on."""
    return [f"set {figures(sizes, models)}", *calendar, f"order {order}", manner, *calls]


def phases(*pairs):
    return [" ".join(["phase", *(f"{first},{period}" for first, period in pairs)])]


def dates(entries, spacings):
    """A list of ticks and models; models behind the last spacing have the spacing 0."""
    spacings = [*spacings, *[0] * (SPACINGS - len(spacings))]
    return [" ".join(["list", listed(spacings), *(f"{tick},{model}" for tick, model in entries)])]


def advances(*groups):
    return [f"advance {group} {LENT}" for group in groups]


def standings(*models):
    return [f"standing {model}" for model in models]


def edges():
    """Rosters at the edges of what they are asked, in both manners and orders."""
    for manner, order in product(MANNERS, KEYS):
        yield from refused_openings(manner, order)
        for sizes, models, calendar, calls in [*plain(), *refused_calls(), *withdrawals(), *deadlines(), *grouped()]:
            yield season(manner, order, sizes, models, calendar, calls)


THREE, PAIR = [(6, 10)] * 3, [(6, 10), (4, 10)]
TEN = phases((0, 10), (0, 10), (0, 10))


def plain():
    """A divided model, the same with groups of which one has no models, and questions among the calls."""
    yield (2, 2, 10), THREE, TEN, advances(1, 1, 1) + standings(1, 2, 3) + advances(1)
    yield (3, 2, 10), THREE, TEN, advances(2, 1, 2, 1) + standings(1, 2, 3)
    yield (4, 1, 10), [(5, 10)], TEN, advances(4, 3, 2, 1, 1, 5, 0)
    asked = ["agenda 0 21 9 64", "spacing 2", "earliest 3 11", "earliest 4 0", f"file {figures((2, 2, 10), THREE)} 40", "agenda 3 2 1 64"]
    yield (2, 2, 10), THREE, TEN, [*asked, *advances(1), *asked, *standings(2), *advances(1, 2), *asked]


def refused_openings(manner, order):
    """Openings that are refused, and then the same over another calendar, which begins another roster."""
    for spacings in ((10, 10, 10), (9, 10, 10), (10, 9, 8), (10, 10, 0), (0, 0, 0)):
        calls = [*advances(1), *standings(1)] if spacings == (10, 10, 10) else ["spacing 1", "earliest 1 0"]
        lines = season(manner, order, (2, 2, 10), THREE, TEN, advances(1))
        # a phase with the period 0 has no dates and is wide enough
        table = phases(*((0, spacing or 9) for spacing in spacings))
        opened = [*table, manner, *calls, *dates([(0, 1)], spacings), manner, *calls]
        yield [*lines, *opened, *TEN, manner, *advances(1), manner, *advances(1), *standings(3)]
    yield season(manner, order, (2, 2, 10), THREE, phases((0, 0)), standings(1) + advances(1))
    # a line that alters the calendar or the order ends the roster
    yield [*season(manner, order, (2, 2, 10), THREE, TEN, advances(1)), "delay 3", manner, *advances(1), "close 0 4", manner, *advances(1),
           "order model", manner, *advances(1, 1), "order remaining", "delay 1", *questions(1, 0, 3, 4, 5), manner, *advances(1)]


def questions(model, *ticks):
    return [f"earliest {model} {tick}" for tick in ticks]


def refused_calls():
    """Whatever is refused, first and later, and then what is not."""
    lent = [LENT, "511 64", "512 63", "511 63", "0 0", "0 64", "512 0", "513 65", "700 100"]
    calls = [f"advance {group} {memory}" for memory in lent for group in (0, 1, 2, TOP)]
    calls += [f"{kind} {model}" for kind in ("standing", "withdraw") for model in (0, 1, 1, 3, 4, TOP)]
    yield (2, 2, 10), THREE, TEN, calls + advances(1) + standings(1, 2, 3)


def refused_sets():
    """Sets that are refused, and files."""
    sound, top = [(6, 10), (3, 5)], TOP
    sizes = [(0, 1, 10), (33, 1, 10), (top, 1, 10), (2, 0, 10), (2, 3, 10), (2, top, 10), (2, 2, 0), (2, 2, 100801), (2, 2, top), (0, 0, 0)]
    cases = [(each, sound) for each in sizes] + [((2, 2, 10), []), ((2, 2, 10), [(1, 10)] * 65)]
    faults = [(6, 0), (6, 3), (6, top), (0, 5), (6, 5), (top, 10), (0, 0), (11, 20)]
    cases += [((2, 2, 10), models) for fault in faults for models in ([fault, *sound], [*sound, fault], [fault, fault])]
    six, full = (6, 10), (100800, 100800)
    cases += [((2, 2, 10), THREE), ((2, 2, 10), [six, six, (9, 10)]), ((1, 1, 10), [six, (5, 10)]), ((2, 1, 10), [*THREE, (1, 10)]),
              ((2, 1, 10), [six, six, (1, 10)]), ((32, 32, 100800), [full] * 32), ((1, 1, 1), [(1, 1)])]
    for each, models in cases:
        size = 16 + 8 * len(models)
        yield [f"set {figures(each, models)}", *(f"file {figures(each, models)} {room}" for room in (size, size + 9, size - 1, 0))]
    for lists in ("6,6 10", "6 10,10", "- 10", "6 -", "- -"):
        yield [f"set 2 2 10 {lists}", f"file 2 2 10 {lists} 99"]


def withdrawals():
    """Withdrawals before anything, in the middle of a run, and at its end."""
    calendar, four = dates([(0, 1), (0, 2), (0, 3), (5, 4)], [10] * 4), [*THREE, (2, 10)]
    for model in range(1, 5):
        for before in range(4):
            withdrawal = [f"withdraw {model}", *standings(model)]
            yield (2, 2, 10), four, calendar, advances(*[1] * before) + withdrawal + advances(*[1] * 4) + standings(1, 2, 3, 4)
    yield (2, 2, 10), four, calendar, [f"withdraw {model}" for model in range(1, 5)] + advances(1, 1)


def deadlines():
    """Deadlines that are no dates, ties, full workers, and dates at both ends of time."""
    yield (1, 1, 10), PAIR, dates([(0, 1), (4, 2)], [10] * 2), [*advances(1), *standings(1, 2)] * 5
    for cost in (1, 2):
        yield (1, 1, 10), [(cost, 5), (6, 10)], dates([(0, 2), (5, 1)], [10] * 2), [*advances(1), *standings(1, 2)] * 4
    yield (1, 1, 10), [(1, 2), (5, 10)], phases((0, 2), (0, 10)), advances(*[1] * 7) + standings(1, 2)
    yield (2, 2, 10), [(6, 10), (8, 10), (6, 10)], TEN, [*advances(1), *standings(1, 2, 3)] * 4
    for last in (END - 1, END - 10):
        calls = [*standings(1, 2), *advances(1)] * 5
        yield (1, 1, 10), PAIR, dates([(0, 1), (last, 1), (END - 1, 2)], [10] * 2), calls
        yield (2, 2, 100800), [(60480, 100800)] * 3, phases(*[(last, 100800)] * 3), [*advances(1), *standings(1, 2, 3)] * 3
        for ticks in (END - last - 1, END - last, END - 1, END, TOP):
            yield (1, 1, 10), PAIR, [*dates([(0, 1), (last, 1), (END - 1, 2)], [10] * 2), f"delay {ticks}"], calls


def grouped():
    """Two groups that go by themselves, heavy models in groups of one, and models that are divided between all neighbours."""
    calendar = dates([*((0, model) for model in (1, 2, 3)), *((3, model) for model in (4, 5, 6))], [10] * 6)
    yield (4, 2, 10), [(6, 10)] * 6, calendar, advances(2, 1, 2, 1, 2) + standings(*range(1, 7))
    yield (4, 2, 10), [(6, 10), (7, 10), (6, 10), (10, 10)], phases(*[(0, 10)] * 4), advances(1, 2, 3, 3, 2, 1, 4) + standings(1, 2, 3, 4)
    yield (32, 32, 64), [(1, 64)] * 33 + [(64, 64)] * 31, phases(*[(0, 64)] * 64), advances(1, 1)


def drawn_sizes(source, wide):
    workers = source.randint(16, 32) if wide else source.choice([1, 1, 2, 2, 2, 3, 3, 4, 5, 6])
    group_size = source.choice([workers, (workers + 1) // 2, source.randint(1, workers)])
    return workers, group_size, source.choice([1, 6, 10, 12, 12, 60, 360, 5040, 100800])


def model_of(source, grain, weight):
    """A cost and a period for just this weight, the period now and then shorter than the grain."""
    periods = [period for period in range(1, min(grain, 60) + 1) if grain % period == 0 and weight * period % grain == 0]
    period = source.choice([*periods, grain])
    return weight * period // grain, period


def drawn_weights(source, workers, group_size, grain, most):
    """Weights of all sizes: in some sets every worker is full, most have so few that they fit."""
    whole, group = workers * grain, group_size * grain
    if source.random() < 0.3:
        # weights that fill one worker after the other, up to the last one of each group
        cuts = {*range(group, whole, group), whole, *(source.randint(1, whole) for _ in range(source.randint(workers, 3 * workers)))}
        cuts = sorted(cuts)
        return [min(cut - past, grain) for past, cut in zip([0, *cuts], cuts)]
    room, top = source.choice([0.3, 0.6, 0.8]) * whole, source.choice([0.1, 0.5, 0.7, 1]) * grain
    weights = [max(1, round(source.random() * top))]
    while sum(weights) < room and len(weights) < most:
        weights.append(max(1, round(source.random() * top)))
    return weights


def drawn_phases(source, models, base):
    pairs = []
    for _, period in models:
        paces = [period] * 5 + [period + 1, period + source.randint(1, 10), 2 * period]
        if source.random() < 0.002:
            paces = [max(period - 1, 1), 0]
        pairs.append((base + source.choice([0, 0, source.randrange(12), source.randrange(period + 1)]), source.choice(paces)))
    return phases(*pairs)


def drawn_list(source, models, base):
    """Spacings, and some dates of each model, which keep to them; now and then one that does not fit."""
    spacings = [period - (source.random() < 0.002) + source.choice([0, 0, 0, 3]) for _, period in models]
    entries = []
    for model, spacing in enumerate(spacings, start=1):
        tick = base + source.choice([0, 0, source.randrange(12)])
        for _ in range(source.randint(0, 20)):
            entries.append((tick, model))
            tick += spacing + source.choice([0, 0, 0, 1, source.randrange(20)])
    entries = sorted((tick, model) for tick, model in entries if tick < END)
    if entries and source.random() < 0.1:
        place, models = source.randrange(len(entries)), len(spacings)
        tick, model = entries[place]
        # past the end, of no model, before the entry ahead, and too near
        misfits = [(END, model), (tick, source.choice([0, 65, TOP])), (max(tick - 20, 0), source.randint(1, models)),
                   (tick + spacings[model - 1] // 2, model)]
        entries.insert(place + 1, source.choice(misfits))
    return dates(entries, spacings)


def drawn_layer(source, base):
    start = max(base + source.randint(-2, 30), 0)
    delay = f"delay {source.choice([0, 1, 5, 30]) if source.random() < 0.98 else END - base}"
    return source.choice([delay, f"close {start} {start + source.choice([0, 1, 5, 20])}"])


def last_group(sizes, models):
    """The last group with a model, or 0 where the set is refused."""
    try:
        return max(Plan(sizes, *zip(*models)).group_of.values())
    except Refused:
        return 0


def can_open(models, calendar):
    calendars = Calendars()
    for line in calendar:
        calendars.add(*parse(line))
    return all(calendars.pile.spacing(model) >= period for model, (_, period) in enumerate(models, start=1))


def drawn_advance(source, groups):
    group = source.randint(1, groups) if source.random() < 0.97 else source.choice([0, groups + 1, groups + 2])
    lent = LENT if source.random() < 0.95 else f"{source.choice([0, 511, 512, 600])} {source.choice([0, 63, 64, 70])}"
    return f"advance {group} {lent}"


def drawn_question(source, sizes, models, base):
    tick, model = base + source.randrange(60), source.choice([*range(1, len(models) + 1), 0, 65])
    end = max(tick + source.choice([-1, 0, 1, 3, 10]), 0)
    bytes_needed = 16 + 8 * len(models)
    return source.choice([
        f"spacing {model}",
        f"earliest {model} {tick}",
        f"agenda {tick} {end} {source.choice([0, 1, 3, 8])} {source.choice([63, 64, 64, 64])}",
        f"file {figures(sizes, models)} {source.choice([bytes_needed, bytes_needed - 1, bytes_needed + 3])}",
    ])


def drawn_call(source, groups, sizes, models, base):
    kind = source.choices(["advance", "standing", "withdraw", "question"], [70, 20, 2, 4])[0]
    if kind == "advance":
        return drawn_advance(source, groups)
    if kind == "question":
        return drawn_question(source, sizes, models, base)
    most = len(models)
    return f"{kind} {source.randint(1, most) if source.random() < 0.95 else source.choice([0, most + 1])}"


def damaged(source, sizes, models):
    """Figures with one fault more."""
    sizes, models, model = [*sizes], [*models], source.randrange(len(models))
    match source.randrange(5):
        case 0:
            sizes[source.randrange(3)] = source.choice([0, 100801])
        case 1:
            models = [*models, *[(1, sizes[2])] * 64]
        case 2:
            models[model] = models[model][0], source.choice([0, sizes[2] + 1])
        case 3:
            models[model] = source.choice([0, models[model][1] + 1]), models[model][1]
        case 4:
            models = [*models, *[(sizes[2], sizes[2])] * sizes[0]][:64]
    return sizes, models


def drawn_season(source):
    """A roster of some fifty calls, its first dates near 0 or just below the end of all dates."""
    wide = source.random() < 0.02
    sizes = drawn_sizes(source, wide)
    weights = drawn_weights(source, *sizes, 64 if wide else 12)[:64]
    models = [model_of(source, sizes[2], weight) for weight in weights]
    base = source.choice([0] * 8 + [7, END - 2000, END - 400, END - 40])
    if source.random() < 0.03:
        sizes, models = damaged(source, sizes, models)
    groups = last_group(sizes, models)
    if groups == 0:
        return [f"set {figures(sizes, models)}", f"file {figures(sizes, models)} {16 + 8 * len(models)}"]
    calendar = source.choice([drawn_phases] * 3 + [drawn_list])(source, models, base)
    calendar += [drawn_layer(source, base) for _ in range(source.choice([0, 0, 0, 1, 2, 3]))]
    groups = source.choice([groups, source.randint(1, groups)])
    if can_open(models, calendar):
        calls = [drawn_call(source, groups, sizes, models, base) for _ in range(source.randint(35, 65))]
    else:
        calls = [drawn_question(source, sizes, models, base) for _ in range(3)]
    return season(source.choice(MANNERS), source.choice([*KEYS]), sizes, models, calendar, calls)


def main(arguments):
    if len(arguments) != 2 or not all(argument.isdecimal() for argument in arguments):
        sys.exit("usage: python3 tools/seasons.py SEED COUNT")
    source = random.Random(int(arguments[0]))
    for _ in range(int(arguments[1])):
        print(*drawn_season(source), sep="\n")


if __name__ == "__main__":
    main(sys.argv[1:])
