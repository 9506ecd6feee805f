"""Calendars for scripts of the program `play`, each with questions: those at the edges of what they may be, and those that are drawn."""
import random
from itertools import chain, product

from calendar_reference import END
from scripts import SPACINGS, TOP, listed

# a plan is needed for a calendar, but says nothing of it
SET = "set 1 1 1 1 1"


def phased(phases):
    """A table of the firsts and periods of some models."""
    pairs = (phases.get(model, (0, 0)) for model in range(1, max(phases, default=0) + 1))
    return " ".join(["phase", *(f"{first},{period}" for first, period in pairs)])


def dated(spacings, entries):
    """A list of ticks and models, with the spacings of some models; those of the others are 0."""
    all_spacings = listed(spacings.get(model, 0) for model in range(1, SPACINGS + 1))
    return " ".join(["list", all_spacings, *(f"{tick},{model}" for tick, model in entries)])


def earliest(*ticks, model=1):
    return [f"earliest {model} {tick}" for tick in ticks]


def agendas(*calls):
    return [f"agenda {start} {end} {room} 64" for start, end, room in calls]


def asked_phases():
    """Phases at the edges of what they may be, and every kind of number that is no model's."""
    for first, period in product((0, 1, END - 1, END, TOP), (0, 1, 2, 7, END - 1, END, TOP)):
        yield [phased({1: (first, period)}), "spacing 1", *earliest(0, 1, 2, END - 1, END, TOP), *agendas((0, END, 3))]
    numbers = (0, 1, 2, 63, 64, 65, 128, 2**31, TOP)
    asked = [*chain(*([f"spacing {model}", *earliest(0, 4, model=model)] for model in numbers)), *agendas((0, 20, 5))]
    for table in (phased({}), phased({1: (3, 10), 64: (4, 10)}), dated({}, []), dated({1: 3, 64: 4}, [(3, 1), (4, 64)])):
        yield [table, *asked]
    # ties of all models, and second dates just below, at and behind the end
    phases = {model: (0, model) for model in range(1, 65)}
    yield [phased(phases), *agendas((0, 1, 63), (0, 1, 64), (0, 1, 65), (1, 9, 20), (5040, 5041, 64))]
    half = 2**29
    phases = {5: (half + 1, half), 6: (half - 1, half), 7: (half, half)}
    yield [phased(phases), *earliest(half + 2, model=5), *agendas((0, END, 9))]


def asked_agendas():
    """Spans at their edges and refused, and lent memory that is just enough or not."""
    table = phased({2: (0, 5), 1: (0, 3), 9: (7, 11)})
    spans = [(0, 0), (5, 5), (END, END), (1, 0), (END, END - 1), (END + 1, END + 1), (END, TOP), (0, END + 1), (0, TOP), (TOP, 0)]
    yield [table, *(f"agenda {start} {end} 2 {scratch}" for start, end in spans for scratch in (0, 63, 64))]
    yield [table, *(f"agenda 0 10 {room} {scratch}" for scratch in (0, 1, 63, 64, 65, 200) for room in (9, 2, 0))]
    # there are 3 + 6 + 2 dates from 2 to 18, and none from 1 to 2
    rooms = (0, 1, 10, 11, 12, 30)
    yield [table, *chain(*(agendas((2, 19, room), (1, 3, room), (0, END, room)) for room in rooms))]
    yield [table, *chain(*(agendas((start, start + 1, 2), (0, start, 20), (start, 16, 20)) for start in range(16)))]


def asked_layers():
    """Layers at their edges, and layers that meet."""
    entries = [(0, 1), (7, 1), (7, 2), (7, 2), (20, 1), (END - 1, 2)]
    tables = [phased({1: (0, 7), 2: (5, 1)}), phased({1: (END - 20, 7), 2: (END - 3, 1)}), dated({1: 5}, entries)]
    ticks = earliest(0, 6, 7, 8, END - 20, END - 19, END - 1)
    for table, later in product(tables, (0, 1, 3, END - 8, END - 7, END - 1, END, END + 1, TOP)):
        yield [table, f"delay {later}", *ticks, *earliest(later, model=2), "spacing 2", *agendas((END - 2, END, 4))]
    edges = [(0, 0), (7, 7), (8, 6), (0, 1), (0, 7), (0, 8), (7, 8), (8, 14), (6, 15), (0, END), (0, TOP), (END - 6, END), (END - 1, END - 1)]
    edges += [(END - 1, END + 5), (END, TOP), (TOP, 0), (TOP, TOP)]
    for table, (start, end) in product(tables, edges):
        yield [table, f"close {start} {end}", *earliest(0, 7, end), *earliest(END - 3, model=2), *agendas((0, 15, 9))]
    # closures that touch, overlap, hold one another, or leave one tick between them
    first = "close 10 20"
    for second in ("20 30", "15 30", "12 18", "5 30", "5 10", "21 30", "5 12", "20 20"):
        for layers in ([first, f"close {second}"], [f"close {second}", first]):
            yield [phased({1: (0, 1)}), *layers, *earliest(4, 5, 9, 10, 12, 18, 19, 20, 21, 29), *agendas((3, 32, 29))]
    # what a delay brings into a closure, or takes out of one
    for layers in (["delay 5", first], [first, "delay 5"], ["delay 5", first, "delay 5"], ["close 5 15", "delay 5", first]):
        yield [phased({1: (0, 4), 3: (2, 3)}), *layers, *earliest(0, 5, 10, 11, 20), *agendas((0, 40, 30))]


def asked_lists():
    """Lists that are sound to the last entry, and lists with each fault at their start, middle and end."""
    sound = [(4, 1), (4, 2), (4, 3), (4, 3), (9, 1), (10, 2), (14, 1), (END - 1, 64)]
    faults = [(END, 5), (TOP, 5), (9, 0), (9, 65), (9, TOP), (3, 1), (8, 5), (8, 1), (9, 2), (5, 2), (4, 1)]
    yield [dated({1: 5, 2: 6}, sound), "spacing 1", "spacing 3", "spacing 4", *earliest(0, 5, 10, END - 1), *agendas((0, END, 8))]
    for fault, place in product(faults, (0, 1, 5, 7, 8)):
        yield [dated({1: 5, 2: 6}, [*sound[:place], fault, *sound[place:]]), *earliest(0), *agendas((0, END, 9))]
    # spacings from nothing to what reaches far past the end
    for spacing in (0, 1, 2, END - 1, END, TOP):
        ends = (0, 1, END - 2, END - 1)
        for first, second in ((a, b) for a in ends for b in ends if a <= b):
            yield [dated({7: spacing}, [(first, 7), (second, 7)]), *agendas((0, END, 2))]
        entries = [(0, 7), (0, 8), (0, 8), (1, 9), (1, 8), (END - 1, 7)]
        yield [dated({7: spacing}, entries), "spacing 7", *agendas((0, END, 5))]
    yield [dated({}, [(6, 5)] * 70), *earliest(6, 7, model=5), *agendas((6, 7, 1), (6, 7, 0))]
    # equal ticks are listed in any order of models, and come out by model
    yield [dated({}, [(3, model) for model in range(64, 0, -1)]), *earliest(3, model=64), *agendas((3, 4, 64), (3, 4, 63))]


def drawn_phases(source, models, base):
    return phased({model: (base + source.randrange(20), source.choice([0, 1, 2, 3, 5, 8, 13, 30])) for model in models})


def drawn_list(source, models, base):
    """Spacings, and entries of which most are sound."""
    spacings = {model: source.choice([0, 0, 1, 3, 8]) for model in models}
    entries, tick, least = [], base, {}
    for _ in range(source.randint(4, 12)):
        tick += source.choice([0, 0, 1, 1, 2, 5])
        model = source.choice(models)
        if tick >= least.get(model, 0) or source.random() < 0.05:
            entries.append((tick, model))
            least[model] = tick + spacings[model]
    return dated(spacings, entries)


def drawn_pile(source, table, layers):
    """A table under these layers, with questions: ticks are small, or just below the end of all dates."""
    base = source.choice([0, 0, 0, 0, 100, END - 60])
    models = source.sample([1, 2, 3, 32, 63, 64], source.randint(1, 4))
    lines = [table(source, models, base)]
    for layer in layers:
        start = base + source.randrange(30)
        end = max(start + source.choice([-1, 0, 1, 3, 6, 10]), 0)
        lines.append(f"delay {source.choice([0, 1, 2, 7, 15])}" if layer == "delay" else f"close {start} {end}")
    for model in source.choices(models, k=2):
        lines += earliest(base + source.randrange(30), model=model)
    start = base + source.choice([0, 1, 10, 20])
    return [*lines, f"spacing {models[0]}", *agendas((start, start + source.choice([1, 20, 40]), source.choice([2, 10, 20, 40])))]


def piles():
    """The lines of each calendar: those at the edges, and four drawn ones of each make."""
    source = random.Random(2026)
    shapes = [layers for count in range(4) for layers in product(("delay", "close"), repeat=count)]
    yield [SET]
    yield from chain(asked_phases(), asked_agendas(), asked_layers(), asked_lists())
    yield from (drawn_pile(source, table, layers) for layers in shapes for table in (drawn_phases, drawn_list) for _ in range(4))
