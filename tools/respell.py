#!/usr/bin/env python3
"""Spells this repository's own definitions and lemmas in snake case, after the kit's port.py.

usage: tools/respell.py        at the top, once, right after port.py

A dash still joins two names; each part that begins with a small letter is turned: payloadLength-most is payload_length_of-most, as
APART has it. It turns whole words in the .antt files, in clauses and comments of the .rt files, in must-fail edits, and in code spans
of the pages; nothing in a string. It stops, having written nothing, where two names of one file would fall together, but where the one
is a definition's and the other a function's, a clause's or a comment's: these were looked at, and MET lists them.
"""

import re
import sys
from pathlib import Path

WORD = re.compile(r"(?<![\w'])[A-Za-z_][A-Za-z0-9_'₀-₉-]*")
SPAN = re.compile(r"`[^`\n]+`")
# Names that a field, or another lemma, has already.
APART = {
    "payloadLength": "payload_length_of",
    "unusedSeptets": "unused_septets_of",
    "hasByte": "has_byte_of",
    "hasWanted": "has_wanted_of",
    "maxEnergy": "max_energy_of",
    "lossPerByte": "loss_per_byte_of",
    "gainPerMicrosecond": "gain_per_microsecond_of",
}
# Lemmas that give way to a definition, as (crate, name): the new name.
GIVES_WAY = {("record", "too_short"): "too-short", ("receiver", "one_more"): "one-more"}
# A definition beside the function that it is of, a clause's name or a word of a comment.
MET = """change_refusal command_in element_count element_size energy_after_portion energy_after_wait frame_count frames_of has_address
hex_byte hex_bytes hex_word high_command is_absent is_cut_off is_full is_idle is_response is_sought is_telegram is_unknown next_fault
next_sync not_block not_slave payload_after payload_of portion_size queue_after search_start section_count settings_refused
telegram_frames too_wide unsent_count wrong_length""".split()
# Names that the kit's port.py turned, for the pages: it turns no page.
TURNED = """all-append all-take all-drop take-below low-half high-fits high-half first-next last-taken found-here here-found not-in
width-is after-on next-here from-start found-at by-first none-after right-kept wanted-by is-right sums-at copied-at no-line next-fits
cut-off too-long byte-fits line-as room-as one-more number-is refused-all held-after received-none extended-none kept-by held-by
goes-on told-of none-left held-kept low-word carried-of lines-of by-lines take-next first-block first-frame address-below with-none
read-back known-as whole-parts whole-length whole-again copy-is whole-long length-part runs-same run-none all-alike no-block
block-refused by-two left-over first-short some-bytes step-fewer step-from split-at from-is head-at counted-none no-length one-less
one-of paid-for no-more past-end full-by any-found held-with table-counted none-free count-set count-kept count-most set-other
from-first from-next from-lowest by-address other-step none-first both-first own-first set-same table-is named-put put-alone
start-right is-wide same-numbers lends-shared shared-back kept-same is-none kept-row set-past by-place low-held frame-right
counted-next kept-more kept-free count-next same-byte same-kind whole-to count-zeros digits-append""".split()


def part(text):
    if text in APART:
        return APART[text]
    if not text[:1].islower() or not re.search(r"[a-z0-9][A-Z]", text):
        return text
    return re.sub(r"(?<=[a-z0-9])[A-Z]", lambda m: "_" + m[0], text).lower()


def turned(name):
    return "-".join(part(piece) for piece in name.split("-"))


def crate_of(path):
    return path.parts[1]


def in_antt(path, text):
    def word(m):
        return GIVES_WAY.get((crate_of(path), m[0])) or turned(m[0])

    return WORD.sub(word, text)


def in_source(path, text):
    """Rust has no such name of its own: outside strings each is a definition's."""
    return re.sub(r'"(?:[^"\\\n]|\\.)*"|' + WORD.pattern, lambda m: m[0] if m[0][0] == '"' else turned(m[0]), text)


def in_page(path, text):
    def word(m):
        return m[0].replace("-", "_") if m[0] in TURNED else turned(m[0])

    return SPAN.sub(lambda m: WORD.sub(word, m[0]) if "/" not in m[0] else m[0], text)


def fall_together(path, text, turn):
    """Pairs of names of a file that would be one."""
    after = {}
    for name in set(WORD.findall(text)):
        after.setdefault(turn(path, name), set()).add(name)
    return [names for name, names in after.items() if len(names) > 1 and name not in MET]


def main():
    written, met = [], []
    files = [(p, in_antt) for p in Path("crates").rglob("*.antt")] + [(p, in_source) for p in Path("crates").rglob("*.rt")]
    files += [(p, in_source) for p in Path("crates").rglob("*.edit")]
    files += [(p, in_page) for p in [Path("README.md"), *Path("docs").glob("*.md")]]
    for path, turn in files:
        if "out" in path.parts:
            continue
        text = path.read_text()
        if turn is not in_page:
            met += [(path, names) for names in fall_together(path, text, turn)]
        new = turn(path, text)
        if new != text:
            written.append((path, new))
    if met:
        for path, names in met:
            print(f"{path}: {', '.join(sorted(names))} would be one")
        return 1
    for path, new in written:
        path.write_text(new)
    print(f"respell: {len(written)} files")
    return 0


sys.exit(main())
