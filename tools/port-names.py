#!/usr/bin/env python3
"""Brings the names of this repository's own definitions and lemmas to the spelling that Rattle has today, after the kit's port.py.

usage: python3 tools/port-names.py [FOLDER]    once, at the top of the repository (or on FOLDER, which has crates/)

Words are in snake case: columnCount becomes column_count. Only words that begin with a small letter turn; types, modules, constants and
constructors keep their capitals, and what stands in src/ as Rust is in snake case already. Where a definition's new name would meet that of a lemma
or of a field, the lemma or the field gets back the dash that it had, as two words are joined by a dash.
"""

import os
import re
import sys

CAMEL = re.compile(r"(?<![\w'·])[a-z_][A-Za-z0-9_]*[a-z0-9][A-Z][A-Za-z0-9_]*(?![\w])")
# Lemmas and fields whose names port.py spelled as a definition is now: the dash comes back. A name behind a dot is a field or a call's own.
DASHED = {
    "task/proofs/TableLaws.antt": ["columns_of"],
    "cutting/proofs/fill_first/Proof.antt": ["columns_of"],
    "unpack/proofs/GivenLaws.antt": ["columns_of"],
    "blocks/proofs/FlatLaws.antt": ["columns_of"],
    "blocks/proofs/MaskLaws.antt": ["columns_of"],
    "blocks/proofs/FollowLaws.antt": ["goes_on"],
    "refining/proofs/FromLaws.antt": ["goes_on"],
    "refining/proofs/LookLaws.antt": ["no_way"],
    "refining/proofs/look/Proof.antt": ["no_way"],
    "run/proofs/TraceLaws.antt": ["goes_on"],
    "trace/proofs/HopLaws.antt": ["no_step"],
    "rows/proofs/FillLaws.antt": ["no_step"],
    "rows/proofs/rows_fit/Proof.antt": ["no_step"],
    "rows/proofs/put_rows/Proof.antt": ["turn_by"],
    "asking/proofs/StateLaws.antt": ["too_many"],
    "asking/proofs/judge_states/Proof.antt": ["too_many"],
    "cut_writing/proofs/CutWritingLaws.antt": ["too_many"],
    "cut_writing/proofs/judge_given/Proof.antt": ["too_many"],
    "question_laws/proofs/Estimates.antt": ["is_state"],
    "historian/proofs/RunEntryLaws.antt": ["told_in"],
    "historian/proofs/run_in/Proof.antt": ["told_in"],
    "rows/proofs/RowRunLaws.antt": ["told_in"],
    "rows/proofs/run_for/Proof.antt": ["told_in"],
    "demands/proofs/Refusals.antt": ["rows_made"],
    "preparing/proofs/PreparingLaws.antt": ["columns_of"],
    "masks/proofs/fill_start/Proof.antt": ["columns_of"],
}
# Here a field is cited behind a dot.
FIELDS = {
    "running/proofs/CountLaws.antt": ["row_list", "cut_list"],
    "historian/proofs/RunEntryLaws.antt": ["row_list", "cut_list"],
    "rows/proofs/RowRunLaws.antt": ["row_list", "cut_list"],
    "lines/proofs/PrintedLaws.antt": ["row_list"],
}


def snake(m):
    return re.sub(r"(?<=[a-z0-9])[A-Z]", lambda c: "_" + c[0].lower(), m[0])


def turned(path, text):
    for name in DASHED.get(path, []):
        text = re.sub(rf"(?<![\w.'-]){name}(?![\w'-])", name.replace("_", "-"), text)
    for name in FIELDS.get(path, []):
        text = re.sub(rf"(?<![\w'-])(?<!g\.){name}(?![\w'-])", name.replace("_", "-"), text)
    # A function of src/ that port.py took for a fact keeps its name.
    text = text.replace("is_IsWide", "is_wide")
    return CAMEL.sub(snake, text)


def main():
    top = os.path.join(sys.argv[1] if len(sys.argv) > 1 else ".", "crates")
    files = 0
    for folder, _, names in os.walk(top):
        for name in names:
            if name.endswith((".rt", ".antt")):
                path = os.path.join(folder, name)
                with open(path, encoding="utf-8") as f:
                    old = f.read()
                new = turned(os.path.relpath(path, top), old)
                if new != old:
                    files += 1
                    with open(path, "w", encoding="utf-8") as f:
                        f.write(new)
    print(f"port-names: {files} files")


main()
