#!/usr/bin/env python3
"""Respells this repository's own definitions and lemmas: words in snake case, as `models_of` for `models-of`.

    python3 tools/respell_names.py        at the top, once, behind Rattle's own port.py; a second run changes nothing

It goes by whole words in crates/*/specs, proofs and src. A dash cannot stand inside a name of Rust, so no code is touched.
Labels that Rattle makes for proof files (`loop-i-preserved`) are not in the list and stay, but for one: the call of the
function `is_heavy` had the label `is-heavy`, and the answers that cite it were mended by hand."""
import re
from pathlib import Path

# A dash becomes `_`.
PLAIN = """
about-figures about-file about-light about-memory about-model about-models about-placing about-sizes about-writing
append-most appends-append appends-none appends-same at-or-below bad-long bad-short bad-size bad-sizes behind-begins
both-none both-weights by-keys by-model by-remaining by-seat by-tick carried-more carried-rises complaint-text
copied-over cost-of costs-from costs-in costs-length costs-level costs-read crowd-heavy cursor-moves cursor-ready
cursor-rises cursor-stays cursor-within decimal-most divisor-le drained-all drained-more drop-later drop-moves
drop-next each-most end-text file-of file-row first-costs first-periods first-stays first-within fits-first
fits-rest getD-blank good-head good-model good-models good-sizes grain-of grain-read group-among group-high group-in
group-inside group-low group-next group-only group-read group-rises group-size-of group-some group-turn heads-from
heavies-le heavies-less heavies-more heavies-rise heavies-same heavy-heavy heavy-is heavy-passes heavy-placed
heavy-step heavy-weight holds-append holds-none joined-append joined-next joined-room joined-row joined-within
last-divided lawful-slots left-child length-joined length-joined-le length-line-by length-line-le length-spaced-le
level-at level-fresh level-from level-heavy level-light level-split level-whole light-placed light-rises light-step
light-told light-weight line-begins line-ends list-absent list-carries list-differs list-earlier list-never
load-most load-text loads-left loads-text low-within made-file made-models made-words model-most model-sound
model-text models-left models-of models-read models-row models-text never-refused no-fault no-group none-heavy
none-upto not-both not-whole number-left off-hole on-worker one-absent one-carries one-differs one-file one-first
one-first-piece one-group one-load one-loads one-model one-models one-never one-placing one-plan one-reading
one-second-piece one-text over-behind parts-of past-header past-sizes paste-front paste-next paste-word paste-words
period-le period-of periods-from periods-in periods-length periods-level periods-read piece-most pieces-at
pieces-most pieces-text place-left plan-most plan-text put-begins quotient-rises quotient-some read-row reads-back
reads-checked reads-figures refusal-most refusal-text rise-stops rise-turn room-enough room-for-light room-left
row-append row-front row-header row-joined row-rest same-faults same-room same-sets same-sizes seat-at seat-cases
seated-more second-of served-more shuffled-moves sink-stops sink-turn sizes-most sizes-text slots-from slots-of
small-cost small-period small-words some-second space-left spelled-all spelled-more spelled-most split-else
split-first split-second spread-all spread-close spread-next spread-on spread-over spread-whole spreads-on
take-exchanged text-most too-heavy total-weight weight-exact weight-fits weight-of weight-some well-at well-split
well-whole whole-else word-left word-most word-spelled worded-more words-at words-stand worker-of workers-read
writes-file written-fits written-more
""".split()

# The plain spelling would fall together with another name, or the dash joins two names, as in `length-append`.
OTHER = {
    'is-heavy': 'is_heavy_weight',
    'workers-of': 'worker_count_of',
    'never-itself': 'by_keys-NeverItself',
    'absence-carries': 'by_keys-AbsenceCarries',
    'one-of-two': 'by_keys-OneOfTwo',
    'earlier-first': 'by_keys-EarlierFirst',
    'length-file': 'length-file_of',
    'length-words': 'length-words_of',
    'word-at-drop': 'word_at-drop',
}

NAMES = {name: name.replace("-", "_") for name in PLAIN} | OTHER
WORD = re.compile(r'[^\s(){}.;,@"«»\x60]+')


def respelled(text):
    return WORD.sub(lambda m: NAMES.get(m[0], m[0]), text)


def main():
    assert len(set(NAMES.values())) == len(NAMES), "two names fall together"
    changed = 0
    for folder in ("specs", "proofs", "src"):
        for path in sorted(Path("crates").glob(f"*/{folder}/**/*")):
            if path.suffix in (".antt", ".rt"):
                old = path.read_text(encoding="utf-8")
                new = respelled(old)
                if new != old:
                    path.write_text(new, encoding="utf-8")
                    changed += 1
    print(f"{changed} files changed")


main()
