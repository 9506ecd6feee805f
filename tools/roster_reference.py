"""A second dispatcher, to compare with: it keeps the sheets and the withdrawn models, and reads all else off them.

Run it with a script for the program `play` on standard input: it prints what that program should print.
"""
import sys
from itertools import accumulate, groupby, pairwise

from reference import Refused, checked, heavy_in, place, weights_of, written
from scripts import CALLS, Calendars, Senseless, parse

# the keys of a run (model, deadline, parts left) in each order, the deciding one first
KEYS = {
    "model": lambda run: (run[1], run[0]),
    "remaining": lambda run: (run[1], run[2], run[0]),
}
WORDS, RUNS = 512, 64


def refused(number, place):
    return f"refused {number} running {place}"


class Plan:
    """What a set says of its models, and where they are."""

    def __init__(self, sizes, costs, periods):
        workers, group_size, self.grain, costs, self.periods = checked(sizes, costs, periods)
        self.weights = weights_of(self.grain, costs, periods)
        self.pieces = place(workers, group_size, self.grain, costs, periods)
        self.costs = [cost * self.grain for cost in costs]
        self.models = range(1, len(costs) + 1)
        self.workers = range(1, workers + 1)
        self.alone = sum(heavy_in(workers, group_size, self.grain, self.weights))
        starts = [*range(1, self.alone + 1), *range(self.alone + 1, workers + 1, group_size)]
        self.groups = [range(start, end) for start, end in zip(starts, [*starts[1:], workers + 1])]
        places = [pieces[0][0] for pieces in self.pieces]
        self.group_of = {model: self.group_with(worker) for model, worker in zip(self.models, places)}

    def group_with(self, worker):
        return next(group for group, workers in enumerate(self.groups, start=1) if worker in workers)

    def whole_on(self, worker):
        return [model for model in self.models if [at for at, _ in self.pieces[model - 1]] == [worker]]

    def divided_on(self, worker, side):
        """The model whose first piece (side 0) or second piece (side 1) is on a worker, with its size, or nothing."""
        divided = [(model, self.pieces[model - 1][side]) for model in self.models if len(self.pieces[model - 1]) == 2]
        return next(((model, size) for model, (at, size) in divided if at == worker), (0, 0))

    def __str__(self):
        loads = [sum(size for pieces in self.pieces for at, size in pieces if at == worker) for worker in self.workers]
        sizes = [[size for _, size in [*pieces, (0, 0)]] for pieces in self.pieces]
        places = [f"{pieces[0][0]}:{first}:{second}" for pieces, (first, second, *_) in zip(self.pieces, sizes)]
        return f"plan {self.alone} {len(self.groups)} | {' '.join(map(str, loads))} | {' '.join(places)}"


class Roster:
    """Of each group the sheets so far, each as (start, end, rows) with a row for each worker of (model, parts), and the withdrawn models."""

    def __init__(self, plan, pile, keys):
        for model in plan.models:
            if pile.spacing(model) < plan.periods[model - 1]:
                raise Refused(8, "opening", model)
        self.plan, self.pile, self.keys = plan, pile, keys
        self.sheets, self.withdrawn = [[] for _ in plan.groups], set()

    def sheets_of(self, model):
        return self.sheets[self.plan.group_of[model] - 1]

    def present(self, group):
        return max((end for _, end, _ in self.sheets[group - 1]), default=0)

    def date_of(self, model):
        """The date of the model's run, or None where it has no run."""
        present = self.present(self.plan.group_of[model])
        date = None if model in self.withdrawn else self.pile.latest(model, present)
        if date is not None and present < date + self.plan.periods[model - 1]:
            return date

    def got(self, model, date):
        """The parts that the sheets from a date on gave a model. A date is never inside an interval of the model's group."""
        rows = (row for start, _, rows in self.sheets_of(model) if start >= date for row in rows)
        return sum(parts for row in rows for other, parts in row if other == model)

    def run_of(self, model):
        date = self.date_of(model)
        if date is not None:
            return model, date + self.plan.periods[model - 1], self.plan.costs[model - 1] - self.got(model, date)

    def moments(self, group):
        """What is due for a group: the next date of each model, and the deadline of each run."""
        present = self.present(group)
        for model, home in self.plan.group_of.items():
            if home == group and model not in self.withdrawn:
                date, date_after = self.date_of(model), self.pile.earliest(model, present + 1)
                if date_after is not None:
                    yield date_after
                if date is not None:
                    yield date + self.plan.periods[model - 1]

    def stretches(self, worker, mirrored, ticks):
        """From which part up to which other a model has a worker."""
        end = self.plan.grain * ticks
        (head, first), (tail, last) = (self.plan.divided_on(worker, side) for side in ((1, 0) if mirrored else (0, 1)))
        opens, closes = first * ticks, end - last * ticks
        yield from ((model, start, stop) for model, start, stop in ((head, 0, opens), (tail, closes, end)) if model and self.run_of(model))
        runs = [run for run in map(self.run_of, self.plan.whole_on(worker)) if run]
        for run in runs:
            ahead = opens + sum(other[2] for other in runs if self.keys(other) < self.keys(run))
            yield run[0], min(ahead, closes), min(ahead + run[2], closes)

    def row(self, worker, mirrored, ticks):
        """Who has a worker in an interval, as (model, parts), one after another; 0 is nobody."""
        stretches = [*self.stretches(worker, mirrored, ticks)]
        cuts = {0, self.plan.grain * ticks, *(cut for _, start, stop in stretches for cut in (start, stop))}
        spans = []
        for start, stop in pairwise(sorted(cuts)):
            holder = next((model for model, opens, closes in stretches if opens <= start < closes), 0)
            spans.append((holder, stop - start))
        return [(model, sum(parts for _, parts in same)) for model, same in groupby(spans, key=lambda span: span[0])]

    def advance(self, group, words, runs):
        if not 1 <= group <= len(self.plan.groups):
            return refused(9, group)
        if words < WORDS or runs < RUNS:
            return refused(10, 1 if words < WORDS else 2)
        start, end = self.present(group), min(self.moments(group), default=None)
        if end is None:
            return refused(12, group)
        workers, mirrored = self.plan.groups[group - 1], len(self.sheets[group - 1]) % 2 == 1
        rows = [self.row(worker, mirrored, end - start) for worker in workers]
        self.sheets[group - 1].append((start, end, rows))
        ends = [end for row in rows for end in accumulate(parts for _, parts in row)]
        models = [model for row in rows for model, _ in row]
        sheet = [len(rows), *map(len, rows), *ends, *models]
        return f"{start} {end} {workers[0]} {len(sheet)} | {' '.join(map(str, sheet))}"

    def withdraw(self, model):
        if model not in self.plan.models:
            return refused(11, model)
        if model in self.withdrawn:
            return refused(13, model)
        self.withdrawn.add(model)
        return "ok"

    def standing(self, model):
        if model not in self.plan.models:
            return refused(11, model)
        date = self.date_of(model)
        if date is None:
            return f"{3 if model in self.withdrawn else 1} 0 0 0"
        got, present = self.got(model, date), self.present(self.plan.group_of[model])
        return f"2 {date} {got} {got - self.plan.weights[model - 1] * (present - date)}"


class Player:
    """What the lines so far have made."""

    def __init__(self):
        self.plan = self.calendars = self.keys = self.roster = None

    def answer(self, line):
        kind, values = parse(line)
        if kind == "file":
            return written(*values)
        if kind == "set":
            self.plan, self.calendars, self.keys, self.roster = None, Calendars(), None, None
            self.plan = Plan(*values)
            return str(self.plan)
        if self.plan is None:
            raise Senseless("there is no plan")
        return self.call(kind, values) if kind in CALLS else self.play(kind, values)

    def play(self, kind, values):
        """The answer to a line over the plan that is no call on a roster."""
        pile = self.calendars.pile
        if kind == "order":
            self.keys, self.roster = KEYS[values[0]], None
            return "ok"
        if kind in ("phase", "list", "delay", "close"):
            self.roster = None
            return self.calendars.add(kind, values)
        if pile is None:
            raise Senseless("there is no calendar")
        if kind == "agenda":
            return pile.agenda(*values)
        if kind == "spacing":
            return str(pile.spacing(*values))
        if kind == "earliest":
            date = pile.earliest(*values)
            return "none" if date is None else str(date)
        if self.keys is None:
            raise Senseless("there is no order")
        self.roster = None
        self.roster = Roster(self.plan, pile, self.keys)
        return "ok"

    def call(self, kind, values):
        if self.roster is None:
            raise Senseless("there is no roster")
        return {"advance": self.roster.advance, "withdraw": self.roster.withdraw, "standing": self.roster.standing}[kind](*values)


def answers_of(lines):
    """The answer to each line of a script."""
    player = Player()
    for number, line in enumerate(lines, start=1):
        try:
            yield player.answer(line)
        except Refused as refusal:
            yield str(refusal).strip()
        except Senseless as fault:
            raise Senseless(f"line {number}: {fault}") from None


if __name__ == "__main__":
    try:
        for answer in answers_of(sys.stdin):
            print(answer)
    except Senseless as fault:
        sys.exit(str(fault))
