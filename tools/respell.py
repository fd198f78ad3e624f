#!/usr/bin/env python3
"""Spells the repository's own definitions as today's Rattle does, once, after its porting script.

    tools/respell.py        at the top of the checkout

Definitions are in snake case, facts in camel case; a lemma keeps its hyphens between words, and a
definition's name inside it is spelled as the definition. Only ghost text changes: .antt files, and
the clauses and `ghost use` lines of .rt files. Functions of src/, strings, comments, inputs and
outputs keep their names.
"""
import os
import re

NAMES = {
    "Appended-to": "AppendedTo",
    "First-found": "FirstFound",
    "Lined-are-faithful": "LinedAreFaithful",
    "Next-found": "NextFound",
    "None-free": "NoneFree",
    "Passed-right": "PassedRight",
    "Row-at": "RowAt",
    "all-cells": "all_cells",
    "all-given": "all_given",
    "all-hold-push": "all_hold-push",
    "all-met": "all_met",
    "all-met-append": "all_met-append",
    "all-met-elim": "all_met-elim",
    "all-met-every": "all_met-every",
    "all-met-intro": "all_met-intro",
    "bill-of": "bill_of",
    "bill-text": "bill_text",
    "board-values": "board_values",
    "closed-false": "closed_false",
    "closed-true": "closed_true",
    "count-text": "count_text",
    "count-within": "count_within",
    "counts-within": "counts_within",
    "current-by": "current_by",
    "decode-stop": "decode_stop",
    "draw-stop": "draw_stop",
    "drawn-by": "drawn_by",
    "encode-stop": "encode_stop",
    "entry-stop": "entry_stop",
    "fault-place": "fault_place",
    "fault-text": "fault_text",
    "first-failing": "first_failing",
    "first-false": "first_false",
    "first-outside": "first_outside",
    "first-wide": "first_wide",
    "from-falling": "from_falling",
    "from-rising": "from_rising",
    "getD-zeros": "get_or-zeros",
    "given-line": "given_line",
    "has-length": "has_length",
    "is-cover": "is_cover",
    "is-on": "is_on",
    "kept-by-joined": "kept_by-joined",
    "kind-number": "kind_number",
    "kind-numbered": "kind_numbered",
    "kind-stop": "kind_stop",
    "length-slack-values": "length-slack_values",
    "made-kind": "made_kind",
    "most-entries": "most_entries",
    "most-rows": "most_rows",
    "none-free-from": "NoneFree-from",
    "none-free-true": "NoneFree-true",
    "on-falling": "on_falling",
    "on-rising": "on_rising",
    "open-stop": "open_stop",
    "or-lowest": "or_lowest",
    "place-lines": "place_lines",
    "place-lines-inside": "place_lines-inside",
    "place-lines-met": "place_lines-met",
    "post-stop": "post_stop",
    "queens-answer": "queens_answer",
    "queens-lines": "queens_lines",
    "queens-of": "queens_of",
    "queens-stop": "queens_stop",
    "rows-from": "rows_from",
    "rows-of-length": "rows_of_length",
    "slack-values": "slack_values",
    "slots-of": "slots_of",
    "solution-upto": "solution_upto",
    "solved-by": "solved_by",
    "start-stop": "start_stop",
    "stop-if": "stop_if",
    "stop-name": "stop_name",
    "stop-number": "stop_number",
    "truth-in": "truth_in",
    "truth-of": "truth_of",
    "truth-of-variable": "truth_of-variable",
    "unless-wide": "unless_wide",
    "variable-of": "variable_of",
    "well-formed": "well_formed",
}
# the names under which two definitions are brought in
NAMES["board-rows"] = "board_rows"
NAMES["board-vars"] = "board_vars"
# an operator, under both of its spellings
NAMES["◌then-if◌"] = "◌then_if◌"
NAMES["then-if"] = "then_if"

# the library's own `All` goes by index, and the gate wants its name for it alone
ALIAS = "AllByRecursion as All"
ALL = re.compile(r"(?<![\w'◌-])All(?![\w'◌-])")

WORD = re.compile(r"(?<![\w'◌-])[A-Za-z◌][\w'◌]*(?:-[\w'◌]+)+")
COMMENT = {".antt": "--", ".rt": "//"}


def respelled(line, ending):
    code, mark, comment = line.partition(COMMENT[ending])
    # a string of the code is left as it is
    parts = re.split(r'("(?:[^"\\\\]|\\\\.)*")', code)
    parts[::2] = [WORD.sub(lambda m: NAMES.get(m.group(), m.group()), p) for p in parts[::2]]
    return "".join(parts) + mark + comment


def unaliased(text):
    if ALIAS not in text:
        return text
    return ALL.sub("AllByRecursion", text.replace(ALIAS, "AllByRecursion"))


def main():
    changed = 0
    for folder, folders, files in os.walk("crates"):
        folders[:] = [f for f in folders if f != "out"]
        for name in files:
            ending = os.path.splitext(name)[1]
            if ending not in COMMENT:
                continue
            path = os.path.join(folder, name)
            with open(path, encoding="utf-8") as file:
                old = file.read()
            new = unaliased("\n".join(respelled(line, ending) for line in old.split("\n")))
            if new != old:
                with open(path, "w", encoding="utf-8") as file:
                    file.write(new)
                changed += 1
    print(f"respell: {changed} files changed")


if __name__ == "__main__":
    main()
