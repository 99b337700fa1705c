#!/usr/bin/env python3
"""Brings the repository's own definitions and lemmas to snake case, in place: usage: tools/respell.py, at the top of a checkout, after port.py.

Takes whole names alone, in .antt and .rt files and in the pages. A name that would fall together with another one gets a name of its own.
Functions of src/, strings, inputs and outputs have no dash in their names and stay as they are.
"""

import pathlib
import re

# names whose snake case is taken: the first by a word of the library, the second by the function that the lemma serves
TAKEN = {"bit-xor": "differ_bit", "first-places": "first_places_lem"}

# where each name stands first
NAMES = """
sets/specs/LimitRows      limit-refusal some-limit
sets/specs/LimitRowsLemmas limit-around limit-decided limit-empty none-shared
sets/specs/Masks          not-below
sets/specs/MasksLemmas    bit-xor digit-half has-and has-digit has-half has-low has-minus has-mod has-not has-or has-past has-pow has-shr has-xor
                          has-zero inside-and inside-half low-le none-zero ones-mono ones-tally same-mask tally-same trailing-member trailing-none
sets/specs/PairRows       pair-refusal
sets/specs/PairRowsLemmas pair-around pair-decided pair-empty true-decides
sets/specs/Refusals       mask-number
sets/specs/RowsLemmas     clean-set some-all some-append some-decides some-found table-inside
sets/proofs/Words         a-fits b-fits common-members cut-value cut-within either-members except-mask except-members first-places inside-decides
                          next-found none-members one-cut one-mask one-members one-past past-places places-fit short-of-places
sets/proofs/cases         three-fail two-pass
policy/specs/Drafts       limit-refusal-below pair-refusal-below role-refusal rule-refusal step-refusal
policy/specs/Policies     no-role role-at set-of with-limit with-role with-roles with-rule with-rules with-step with-steps
policy/specs/Refusals     draft-number draft-words mask-passed-on row-passed-on
policy/specs/Rules        basis-above grantee-has not-too-deep role-below stands-for
policy/proofs/Below       exact-had exact-more junior-below
policy/proofs/Drafts      handed-on limit-checks limit-like limit-low limits-exist limits-few limits-held none-some pair-checks pair-like pairs-apart
                          pairs-exist pairs-few pairs-held within-value
policy/proofs/Rules       walked-found walked-has walked-past
policy/proofs/Same        same-sealed
policy/proofs/Sound       few-rows limits-more pairs-more rules-more sound-history sound-role sound-rule sound-session sound-standing sound-step steps-more
policy/proofs/Tables      by-item few-push throughout-push throughout-take throughout-weaker
policy/proofs/TwoSteps    below-le below-zero under-listed upper-listed
policy/proofs/sealed      no-rule
quotation/specs/Studio    act-number act-word studio-limits studio-pairs
quotation/proofs/People   known-takes new-takes
quotation/proofs/Studio   nothing-kept
"""

SPELLED = {n: TAKEN.get(n, n.replace("-", "_")) for line in NAMES.splitlines() for n in line.split() if "/" not in n}
WHOLE = re.compile(r"(?<![\w'-])(" + "|".join(sorted(map(re.escape, SPELLED), key=len, reverse=True)) + r")(?![\w'-])")


def main():
    top = pathlib.Path(".")
    files = [p for kind in ("*.antt", "*.rt") for p in top.glob("crates/*/**/" + kind) if "out" not in p.parts]
    for p in files + [top / "README.md", *top.glob("docs/*.md")]:
        old = p.read_text(encoding="utf-8")
        new = WHOLE.sub(lambda m: SPELLED[m[1]], old)
        if new != old:
            p.write_text(new, encoding="utf-8")


if __name__ == "__main__":
    main()
