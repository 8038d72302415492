#!/usr/bin/env python3
"""Spells this repository's own definitions and lemmas as the library spells its names: words in snake case, facts and
types in camel case. Run once, at the top, on the text that came out of the kit's own upgrade; what it did is listed in
docs/PORT.md.

Only names that the repository itself declares are in the list. A name behind a dot stays: each such place is a step that
Rattle names after the source, as c.first-from. Functions of src/, exported names, strings, inputs and outputs are not
touched.
"""

import pathlib
import re

NAMES = """
All-ahead Answers-mean Fits-in Goes-in Head-ok In-range Is-head Is-picture Is-record Least-for Least-width
Measured-more Measures-all No-picture Read-as Read-or Refused-for Sealed-as Told-apart add-at-the-cap
add-fault after-flash after-memory ahead-below all-below all-bits all-rising answers-mean append-sorted
at-all-same at-append at-t back-other bad-count bad-head bad-width before-trans behind-all below-from
beyond-all beyond-from beyond-more bit-above bit-between bit-lt bit-packed bit-set-other bit-set-same bit-take
bits-append bits-digits bits-head bits-needed bits-record bits-records bits-row body-fault body-next
bounds-append bounds-insert bounds-none byte-is-field case-of chain-linked chain-step cleared-holds content-of
count-in count-is count-width digit-of-number digits-at digits-least draft-more earliest-means end-fault
end-wide ending-is every-from fall-first fall-refused field-between field-byte field-five field-in-byte
field-kept field-one field-spells field-within fields-of first-at-rank first-behind first-beyond first-fall
first-falls first-from first-from-cut first-least first-none first-of-none first-one-within first-readings
first-refused first-same fits-from fits-needed flash-after flash-answer flash-place front-other gap-tells
give-up handle-in handle-is head-behind head-bits head-fault head-index head-line head-sound head-spells
head-used head-within held-alike held-at-rank held-beyond held-front held-here held-means held-past hi-is
holds-from-packed in-back in-front insert-at-rank insert-cases insert-cut insert-new insert-old insert-sorted
is-record joined-more kept-flash kept-insert kept-none last-at last-index last-never least-for length-head
length-insert length-packed length-readings length-record length-records length-row length-versions
line-spells linked-behind linked-chain linked-head linked-same linked-turn linked-walk look-past look-some
mag-from mag-signed mapped-none measure-fault measured-more measured-not memory-after memory-answer
memory-place more-readings narrow-none narrow-past narrow-some nearest-means needed-at needed-fits needed-high
needed-least needed-low never-before newest-is newest-means newest-one newest-outside next-after next-push
no-picture none-at-rank none-less none-ones none-rising not-before not-both not-read not-rising
number-of-digits number-split of-0 of-1 of-127 of-128 of-minus-1 of-minus-128 of-minus-2 of-point
of-point-narrow one-not one-record or-none or-zero outside-more packed-at packed-from-holds packed-is
packs-more padding-last padding-placed padding-set part-byte part-computed part-high part-lt part-mid
passes-look passes-point peak-of-an-equal picture-of picture-size place-answer place-small put-aside
put-behind rank-back rank-front rank-le rank-of reaches-is reading-at readings-are readings-in reads-back
record-before record-bits record-number record-place record-spells record-start record-within records-spell
removed-bit rest-behind rising-all rising-at rising-push room-one row-long row-spells same-readings seal-fault
seal-free sealable-measured seen-narrow shr-more signed-twos some-none sorted-from span-field spelled-field
spells-append spells-back spells-front split-readings split-same taking-full taking-in taking-out told-apart
told-sealed too-new turn-fault twos-is twos-lt twos-signed value-bits value-last value-skip version-at
version-head version-is version-kept versions-in versions-kept versions-more walk-less walk-linked walk-on
walk-there when-none widened-swap widest-is width-first width-high width-in width-needed width-push
wrong-length wrote-more wrote-part wrote-turn
""".split()


def respelled(name):
    parts = name.split("-")
    if name[0].isupper():
        return "".join(p[:1].upper() + p[1:] for p in parts)
    return "_".join(parts)


TABLE = {n: respelled(n) for n in NAMES}
WORD = re.compile(r"(?<![\w'.-])[A-Za-z][\w']*(?:-[\w']+)+(?![\w'-])")


def turned(text):
    return WORD.sub(lambda m: TABLE.get(m[0], m[0]), text)


def main():
    changed = 0
    for path in sorted(pathlib.Path("crates").rglob("*")):
        if path.suffix not in (".rt", ".antt") or "out" in path.parts:
            continue
        old = path.read_text(encoding="utf-8")
        new = turned(old)
        if new != old:
            path.write_text(new, encoding="utf-8")
            changed += 1
    print(f"respell: {changed} files")


if __name__ == "__main__":
    main()
