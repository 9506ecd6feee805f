"""A second implementation of calendars and agendas, to compare with: the dates of a model are ranges, and an agenda is a sorted set."""
from bisect import bisect_left

# dates are below this tick, which is also the spacing of a phase with the period 0 and of what is no model
END = 2**30
MODELS = range(1, 65)


def within(ticks, start, end):
    """Those of a range that are not below one tick, but below another."""
    return ticks[bisect_left(ticks, start):bisect_left(ticks, end)]


class Pile:
    """The dates of each model that has any, as ranges whose members do not fall from one range to the next, and the spacings."""

    def __init__(self):
        self.dates = {model: [] for model in MODELS}
        self.spacings = {}

    def map_dates(self, function):
        for model, ranges in self.dates.items():
            self.dates[model] = [part for ticks in ranges for part in function(ticks)]

    def delay(self, ticks):
        def later(dates):
            return range(dates.start + ticks, dates.stop + ticks, dates.step)

        self.map_dates(lambda dates: [within(later(dates), 0, END)])

    def closure(self, start, end):
        if start < end:
            self.map_dates(lambda dates: [within(dates, 0, start), within(dates, end, END)])

    def spacing(self, model):
        return self.spacings.get(model, END)

    def earliest(self, model, start):
        """The earliest date at or after a tick, or None."""
        ranges = (within(ticks, start, END) for ticks in self.dates.get(model, []))
        return next((ticks[0] for ticks in ranges if ticks), None)

    def latest(self, model, tick):
        """The latest date up to a tick, or None."""
        ranges = (within(ticks, 0, tick + 1) for ticks in reversed(self.dates.get(model, [])))
        return next((ticks[-1] for ticks in ranges if ticks), None)

    def agenda(self, start, end, room, scratch):
        """The number of dates from one tick up to another, or a refusal, and the table as it is then."""
        table = ["_"] * room
        if start > end or end > END:
            answer = "refused 15 agenda 0"
        elif scratch < len(MODELS):
            answer = "refused 10 agenda 2"
        else:
            # of one range, no more dates matter than one more than the table has room for
            parts = ((model, within(ticks, start, end)) for model, ranges in self.dates.items() for ticks in ranges)
            dates = {(tick, model) for model, ticks in parts for tick in ticks[:room + 1]}
            things = [f"{model}@{tick}" for tick, model in sorted(dates)]
            table[:len(things)] = things[:room]
            answer = len(things) if len(things) <= room else f"refused 16 agenda {room}"
        return f"{answer} | {' '.join(table)}"

    @classmethod
    def of_phases(cls, phases):
        """The pile of these firsts and periods, and what is answered to its line."""
        pile = cls()
        for model, (first, period) in enumerate(phases, start=1):
            if period > 0:
                pile.dates[model] = [range(first, END, period)]
                pile.spacings[model] = period
        return pile, "ok"

    @classmethod
    def of_list(cls, spacings, entries):
        """The pile of a list of ticks and models, and what is answered to its line."""
        pile, said = cls(), "ok"
        pile.spacings = dict(enumerate(spacings, start=1))
        for place, entry in enumerate(entries):
            if not fits(entry, entries[:place], pile.spacings):
                said = f"refused 14 calendar {place}"
                entries = entries[:place]
                break
        for tick, model in entries:
            pile.dates[model].append(range(tick, tick + 1))
        return pile, said


def fits(entry, before, spacings):
    """Whether an entry may stand behind those before it."""
    tick, model = entry
    if tick >= END or model not in MODELS:
        return False
    return all(tick >= past and (other != model or tick >= past + spacings[model]) for past, other in before)


def checksum_of(end, phases):
    """What the program `timed` answers: the number of all dates before a tick, and a checksum of them in their order."""
    numbered = enumerate(phases, start=1)
    dates = sorted((tick, model) for model, (first, period) in numbered for tick in range(first, end, period))
    checksum = 0
    for tick, model in dates:
        checksum = (checksum * 0x9E3779B97F4A7C15 + (tick << 32 | model)) % 2**64
    return f"{len(dates)} {checksum}\n"
