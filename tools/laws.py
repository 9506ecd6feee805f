"""Checks answers to a script of the program `play` against what is promised of them; it makes no sheet of its own.

    python3 tools/laws.py SCRIPT ANSWERS

prints how many rosters, intervals and runs there were, and how often each refusal occurred. Where a promise is not kept,
it names the line of the script, and ends with status 1.
"""
import sys
from collections import Counter
from itertools import accumulate, pairwise

from scripts import CALLS, Calendars, Senseless, parse

MOST_WORDS = 287


class Broken(Exception):
    """A promise that is not kept."""


def want(kept, promise):
    if not kept:
        raise Broken(promise)


class Plan:
    """A set, and where its answer says that its models are."""

    def __init__(self, sizes, costs, periods, answer):
        self.workers, group_size, self.grain = sizes
        self.costs, self.periods, self.models = costs, periods, range(1, len(costs) + 1)
        self.weights = [cost * self.grain // period for cost, period in zip(costs, periods)]
        counts, loads, pieces = answer.removeprefix("plan ").split(" | ")
        alone, self.group_count = map(int, counts.split())
        self.loads = [int(load) for load in loads.split()]
        self.pieces = [tuple(map(int, piece.split(":"))) for piece in pieces.split()]
        starts = [*range(1, alone + 1), *range(alone + 1, self.workers + 1, group_size)]
        self.groups = [range(start, end) for start, end in zip(starts, [*starts[1:], self.workers + 1])]
        self.group_of = {model: self.group_with(worker) for model, (worker, _, _) in zip(self.models, self.pieces)}
        self.check_facts()

    def group_with(self, worker):
        return next((group for group, workers in enumerate(self.groups, start=1) if worker in workers), 0)

    def is_divided(self, model):
        return self.pieces[model - 1][2] > 0

    def check_facts(self):
        """The four facts of every plan."""
        want(len(self.groups) == self.group_count and len(self.pieces) == len(self.models), "the plan has its groups and models")
        sizes, firsts, seconds = Counter(), Counter(), Counter()
        for (worker, first, second), weight in zip(self.pieces, self.weights):
            want(first >= 1 and second >= 0 and first + second == weight, "pieces are positive and add up to the weight")
            sizes.update({worker: first})
            if second:
                want(self.group_with(worker) == self.group_with(worker + 1), "a model is divided within a group")
                sizes.update({worker + 1: second})
                firsts.update([worker])
                seconds.update([worker + 1])
        want([sizes[worker] for worker in range(1, self.workers + 1)] == self.loads, "loads are sums of pieces")
        want(max(self.loads) <= self.grain, "no load is above the grain")
        want(max([0, *firsts.values(), *seconds.values()]) <= 1, "a worker has one first and one second piece")


class Roster:
    """What the answers so far have come to: presents, withdrawn models, and what each run got."""

    def __init__(self, plan, pile, totals):
        self.plan, self.pile, self.totals = plan, pile, totals
        self.presents, self.withdrawn, self.got = [0 for _ in plan.groups], set(), Counter()

    def run_at(self, model, tick):
        """The date and the deadline of the run that a model has at a tick, or None."""
        date = None if model in self.withdrawn else self.pile.latest(model, tick)
        if date is not None and tick < date + self.plan.periods[model - 1]:
            return date, date + self.plan.periods[model - 1]

    def runs_in(self, group):
        """The models of a group that have a run, with date and deadline."""
        runs = {model: self.run_at(model, self.presents[group - 1]) for model in self.plan.models if self.plan.group_of[model] == group}
        return {model: run for model, run in runs.items() if run}

    def next_moment(self, group):
        """The first later tick that is a date or a deadline, or None."""
        live = (model for model in self.plan.models if self.plan.group_of[model] == group and model not in self.withdrawn)
        dates = (self.pile.earliest(model, self.presents[group - 1] + 1) for model in live)
        deadlines = (deadline for _, deadline in self.runs_in(group).values())
        return min([*(date for date in dates if date is not None), *deadlines], default=None)

    def advance(self, answer, group, words, runs):
        if answer.startswith("refused"):
            number, place = int(answer.split()[1]), int(answer.split()[3])
            there_is = 1 <= group <= self.plan.group_count
            right = {9: not there_is and place == group, 12: there_is and place == group and self.next_moment(group) is None}
            right[10] = there_is and (place == 1 and words < 512 or place == 2 and words >= 512 and runs < 64)
            want(right.get(number, False), "an advance is refused for its first fault")
            return
        numbers, sheet = (part.split() for part in answer.split("|"))
        start, end, first, written = map(int, numbers)
        rows = self.rows_of([*map(int, sheet)], group, end - start)
        want(words >= 512 and runs >= 64, "an advance has memory")
        want(first == self.plan.groups[group - 1][0] and written == len(sheet), "an advance answers its first worker and its words")
        want(start == self.presents[group - 1], "intervals of a group join")
        want(start < end == self.next_moment(group), "an interval ends at the first later date or deadline")
        self.serve(group, rows, start, end)
        self.totals["intervals"] += 1

    def rows_of(self, words, group, ticks):
        """The rows of a sheet, each a list of (start, end, model), checked one by one."""
        count = words[0]
        lengths, rest = words[1:count + 1], words[count + 1:]
        spans = sum(lengths)
        want(count == len(self.plan.groups[group - 1]) and len(rest) == 2 * spans, "a sheet has the words of its rows")
        want(len(words) <= MOST_WORDS, "a sheet has at most 287 words")
        rows = []
        for length, past in zip(lengths, [0, *accumulate(lengths)]):
            ends, models = rest[past:past + length], rest[spans + past:spans + past + length]
            want(ends and ends[-1] == ticks * self.plan.grain, "a row ends where the interval ends")
            want(all(a < z for a, z in pairwise([0, *ends])), "spans have a length")
            want(all(a != z for a, z in pairwise(models)), "neighbours differ")
            rows.append([*zip([0, *ends], ends, models)])
        return rows

    def serve(self, group, rows, start, end):
        """Checks who got what between two ticks."""
        runs, spans = self.runs_in(group), {}
        for worker, row in zip(self.plan.groups[group - 1], rows):
            for opens, closes, model in row:
                if model:
                    want(model in runs and end <= runs[model][1], "a model is served from a date to its deadline, and not withdrawn")
                    at, _, second = self.plan.pieces[model - 1]
                    want(worker == at or second and worker == at + 1, "a model is served where it is placed")
                    spans.setdefault(model, []).append((opens, closes))
        for model, (date, deadline) in runs.items():
            parts = sorted(spans.get(model, []))
            want(all(a[1] <= z[0] for a, z in pairwise(parts)), "no model is on two workers at once")
            got = sum(closes - opens for opens, closes in parts)
            want(not self.plan.is_divided(model) or got == self.plan.weights[model - 1] * (end - start), "a divided model gets its share")
            self.got[model, date] += got
            if deadline == end:
                want(self.got[model, date] == self.plan.costs[model - 1] * self.plan.grain, "a run gets just its parts by its deadline")
                self.totals["runs"] += 1
        self.presents[group - 1] = end

    def withdraw(self, answer, model):
        if model not in self.plan.models:
            want(answer == f"refused 11 running {model}", "a withdrawal is of a model")
        else:
            want(answer == (f"refused 13 running {model}" if model in self.withdrawn else "ok"), "a model is withdrawn once")
        if answer == "ok":
            self.withdrawn.add(model)

    def standing(self, answer, model):
        if model not in self.plan.models:
            want(answer == f"refused 11 running {model}", "a standing is of a model")
            return
        present = self.presents[self.plan.group_of[model] - 1]
        run = self.run_at(model, present)
        if run:
            got = self.got[model, run[0]]
            lag = got - self.plan.weights[model - 1] * (present - run[0])
            want(answer == f"2 {run[0]} {got} {lag}", "a standing tells the run")
            want(lag == 0 or not self.plan.is_divided(model), "a divided model keeps pace")
        else:
            want(answer == f"{3 if model in self.withdrawn else 1} 0 0 0", "a model without a run is waiting or withdrawn")


class Laws:
    """What the lines so far have made."""

    def __init__(self):
        self.totals = Counter()
        self.plan = self.calendars = self.roster = None

    def check(self, line, answer):
        kind, values = parse(line)
        if answer.startswith("refused"):
            self.totals[f"refused {answer.split()[1]}"] += 1
        if kind == "set":
            self.roster, self.calendars = None, Calendars()
            self.plan = None if answer.startswith("refused") else Plan(*values, answer)
        elif self.plan is None and kind != "file":
            raise Senseless("there is no plan")
        elif kind in ("phase", "list", "delay", "close"):
            self.roster = None
            want(self.calendars.add(kind, values) == answer, "a calendar is as its lines say")
        elif kind in ("order", "open", "follow"):
            self.roster = None
            if kind != "order" and answer == "ok":
                self.roster = Roster(self.plan, self.calendars.pile, self.totals)
                self.totals["rosters"] += 1
        elif kind in CALLS:
            want(self.roster, "a call has a roster")
            getattr(self.roster, kind)(answer, *values)


def totals_of(lines, answers):
    """What was counted. It is Broken where a promise is not kept."""
    laws = Laws()
    if any(answer.startswith("touched") for answer in answers):
        raise Broken("not so: memory that a call has to leave is as it was")
    if len(lines) != len(answers):
        raise Broken(f"{len(lines)} lines have {len(answers)} answers")
    for number, (line, answer) in enumerate(zip(lines, answers), start=1):
        try:
            laws.check(line, answer)
        except (Broken, Senseless) as fault:
            raise Broken(f"line {number}: not so: {fault}") from None
        except (IndexError, ValueError):
            raise Broken(f"line {number}: no such answer: {answer[:40]}") from None
    return laws.totals


def told(totals):
    """The totals as text: first what was played, then the refusals by number."""
    refusals = sorted((int(key.split()[1]), count) for key, count in totals.items() if key.startswith("refused"))
    played = ", ".join(f"{totals[key]} {key}" for key in ("rosters", "intervals", "runs"))
    return f"{played}; refused " + ", ".join(f"{number}: {count}" for number, count in refusals)


def main(arguments):
    if len(arguments) != 2:
        sys.exit("usage: python3 tools/laws.py SCRIPT ANSWERS")
    try:
        with open(arguments[0]) as script, open(arguments[1]) as answers:
            print(told(totals_of(script.read().splitlines(), answers.read().splitlines())))
    except (OSError, ValueError, Broken) as fault:
        sys.exit(str(fault))


if __name__ == "__main__":
    main(sys.argv[1:])
