"""A second implementation of orders and of a queue, to compare with: a list that is searched for its first thing.

Run it with lines for the program `served` on standard input: it prints what that program should print.
"""
import sys

# the keys of a thing (model, moment, parts) in each order, the deciding one first
KEYS = {
    "tick": lambda thing: (thing[1], thing[0]),
    "model": lambda thing: (thing[1], thing[0]),
    "remaining": lambda thing: (thing[1], thing[2], thing[0]),
}


def answer_of(line):
    """The answers to the calls of one line."""
    order, slots, *calls = line.split()
    keys, slots = KEYS[order], int(slots)
    held, answers, most_held = [], [], 0
    for call in calls:
        if call[0] == "+":
            if len(held) == slots:
                answers.append("full")
            else:
                model, moment, parts = map(int, call[1:].split(","))
                held.append((model, moment, 0 if order == "tick" else parts))
                answers.append("put")
        elif call != "-":
            raise ValueError(call)
        elif held:
            first = min(held, key=keys)
            held.remove(first)
            answers.append("{},{},{}".format(*first))
        else:
            answers.append("none")
        most_held = max(most_held, len(held))
    answers.append(f"holds {len(held)} untouched {slots - most_held}")
    return " ".join(answers) + "\n"


if __name__ == "__main__":
    for text in sys.stdin:
        sys.stdout.write(answer_of(text))
