"""Scripts for the program `play`, line by line: docs/FORMATS.md says what each line means."""
from calendar_reference import Pile

TOP = 2**32 - 1
SPACINGS = 64

# the lines that are a word and so many numbers
NUMBERS = {
    "delay": 1, "close": 2, "advance": 3, "withdraw": 1, "standing": 1, "agenda": 4, "spacing": 1, "earliest": 2,
}
CALLS = ("advance", "withdraw", "standing")
QUESTIONS = ("agenda", "file", "spacing", "earliest")


class Senseless(Exception):
    """A line that makes no sense."""


def number(word):
    if not (word.isascii() and word.isdecimal()) or int(word) > TOP:
        raise Senseless(f"no number: {word}")
    return int(word)


def numbers(word):
    return [] if word == "-" else [number(part) for part in word.split(",")]


def listed(values):
    return ",".join(map(str, values)) or "-"


def pair(word):
    first, comma, second = word.partition(",")
    if not comma:
        raise Senseless(f"one number alone: {word}")
    return number(first), number(second)


def pairs(words):
    return [] if words == ["-"] else [*map(pair, words)]


def figures(words):
    """Workers, group size and grain; costs; periods."""
    *sizes, costs, periods = words
    return [*map(number, sizes)], numbers(costs), numbers(periods)


def check_count(words, count):
    if len(words) != count:
        raise Senseless("too many words" if len(words) > count else "a word is missing")


def parse(line):
    """The word of a line, and its arguments."""
    kind, *words = line.split() or [""]
    if kind in NUMBERS:
        check_count(words, NUMBERS[kind])
        return kind, [*map(number, words)]
    if kind == "set":
        check_count(words, 5)
        return kind, figures(words)
    if kind == "file":
        check_count(words, 6)
        return kind, [*figures(words[:5]), number(words[5])]
    if kind in ("open", "follow"):
        check_count(words, 0)
        return kind, []
    if kind == "order" and words in (["model"], ["remaining"]):
        return kind, words
    if kind == "phase" and len(words) <= SPACINGS:
        return kind, [pairs(words)]
    if kind == "list" and words:
        spacings, entries = numbers(words[0]), pairs(words[1:])
        if len(spacings) == SPACINGS:
            return kind, [spacings, entries]
    raise Senseless(f"what is {line.strip()[:40]}?")


class Calendars:
    """The calendar that the lines so far make."""

    def __init__(self):
        self.pile, self.layers = None, 0

    def add(self, kind, values):
        """The answer to a line that begins a calendar, or lays a layer over it."""
        if kind in ("phase", "list"):
            self.pile, said = Pile.of_phases(*values) if kind == "phase" else Pile.of_list(*values)
            self.layers = 0
            return said
        if self.pile is None or self.layers == 3:
            raise Senseless("more than three layers" if self.pile else "there is no calendar")
        self.layers += 1
        (self.pile.delay if kind == "delay" else self.pile.closure)(*values)
        return "ok"
