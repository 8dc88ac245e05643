#!/usr/bin/env python3
"""Brings the repository's own definitions and lemmas to Rattle's spelling: words in snake case.

usage: python3 tools/respell.py    at the top, once, right behind port.py

`cellBits` becomes cell_bits and `same-length` same_length, in specs/, proofs/, the clauses of src/ and the names on the pages.
Names from the library and those that Rattle makes of the code keep theirs. Where a law would have its definition's name, it gets `_lem`."""
import os
import re

TOKEN = re.compile(r"[^\s(){}.;,:\[\]⌜⌝\"@`|]+")
CAMEL = re.compile(r"[a-z][A-Za-z0-9_']*[a-z0-9_][A-Z][^\s]*")
# Names that fall together: the law beside its definition, or a variable beside a definition.
APART = {
    "build-buffer": "build_buffer_lem", "card-of": "card_of_lem", "card-read": "card_read_lem", "card-values": "card_values_lem",
    "cascade-text": "cascade_text_lem", "cell-fits": "cell_fits_lem", "cell-of": "cell_of_lem", "child_fits": "child_fits_lem",
    "class-at": "class_at_lem", "compared-in": "compared_in_lem", "compile-buffer": "compile_buffer_lem",
    "compile-cells": "compile_cells_lem", "cut-place": "cut_place_lem", "diagram-text": "diagram_text_lem", "end-size": "end_size_lem",
    "expand-buffer": "expand_buffer_lem", "first-number": "first_number_lem", "found_in": "found_in_lem",
    "greatest-sum": "greatest_sum_lem", "image-length": "image_length_lem", "in-front": "in_front_lem",
    "input-length": "input_length_lem", "is-due": "is_due_lem", "is-first": "is_first_lem", "is-weight": "is_weight_lem",
    "last_line": "last_line_lem", "latest-before": "latest_before_lem", "least-sum": "least_sum_lem", "limit-word": "the_limit_word",
    "line-length": "line_length_lem", "list-fits": "list_fits_lem", "listed-plan": "listed_plan_lem",
    "listing-length": "listing_length_lem", "lowest-of": "lowest_of_lem", "n-word": "the_n_word", "next_place": "next_place_lem",
    "no_cell": "no_cell_lem", "node-bound": "node_bound_lem", "node-count": "node_count_lem", "pair-run": "pair_run_lem",
    "planned-length": "planned_length_lem", "range-fits": "range_fits_lem", "reading-for": "reading_for_lem",
    "record-fits": "record_fits_lem", "sizes-from": "sizes_from_lem", "table-passes": "table_passes_lem", "uses-at": "uses_at_lem",
    "values-at": "values_at_lem", "values-below": "values_below_lem", "walk-value": "walk_value_lem", "weight-at": "weight_at_lem",
    "word-there": "word_there_lem",
}
CRATES = sorted(name for name in os.listdir("crates") if os.path.isdir(os.path.join("crates", name)))


def snake(word):
    word = re.sub(r"([a-z0-9_])([A-Z])", lambda m: m.group(1) + ("" if m.group(1) == "_" else "_") + m.group(2).lower(), word)
    return word.replace("-", "_")


def is_respelled(token):
    return bool(re.match(r"[a-z]", token)) and (token in APART or "-" in token or bool(CAMEL.fullmatch(token)))


def new_name(token):
    return APART.get(token) or snake(token)


def imports(text):
    """The names that a file imports, those of the repository and the others."""
    ours, others = set(), set()
    for path, names in re.findall(r"^use ([^\n{]*)\{([^}]*)\}", text, re.M):
        owner = re.match(r"Rattle\.(\w+)\.", path)
        (ours if owner and owner.group(1) in CRATES else others).update(name.strip() for name in names.split(","))
    return ours, others


def each_code(text, comment, turn):
    """Turns the tokens of each line's code; of its comment only those in camel case."""
    lines = []
    for line in text.split("\n"):
        at = re.search(r"(^|\s)" + comment, line)
        code, rest = (line[: at.start()], line[at.start() :]) if at else (line, "")
        code = TOKEN.sub(lambda m: turn(m.group(), code[: m.start()]), code)
        rest = TOKEN.sub(lambda m: snake(m.group()) if CAMEL.fullmatch(m.group()) else m.group(), rest)
        lines.append(code + rest)
    return "\n".join(lines)


def lemma_file(text):
    others = imports(text)[1]

    def turn(token, before):
        head = re.search(r"([^\s(){}\[\],;.]+)\.$", before)
        kept = token in others or (head and head.group(1) in others)
        return token if kept or not is_respelled(token) else new_name(token)

    return each_code(text, "--", turn)


def function_proof(text):
    ours, others = imports(text)
    aliases = set(re.findall(r"^use Rattle\.(?:" + "|".join(CRATES) + r")\.specs\.\S+ as (\S+)", text, re.M))
    # What the file declares for itself: all but the answers to goals.
    own = {name for name, its in re.findall(r"^ *(?:(?:pub|abbrev) +)*([^\s(){}:]+) : (.*)", text, re.M) if not re.match(r"\{?M? ?:? ?(tie\.|.*statement M)", its)}

    def turn(token, before):
        if token in others or not is_respelled(token):
            return token
        if "-" not in token and token not in APART:
            return new_name(token)
        head = re.search(r"([^\s(){}\[\],;]+)\.$", before)
        if head:
            return new_name(token) if head.group(1) in aliases else token
        return new_name(token) if token in ours or token in own else token

    return each_code(text, "--", turn)


def source(text):
    return each_code(text, "//", lambda token, before: snake(token) if CAMEL.fullmatch(token) and before.count('"') % 2 == 0 else token)


def page(text):
    def span(m):
        return TOKEN.sub(lambda t: new_name(t.group()) if is_respelled(t.group()) else t.group(), m.group())

    return re.sub(r"`(?:" + "|".join(CRATES) + r"):[^`]*`", span, text)


def rewrite(path, turn):
    with open(path, encoding="utf-8") as file:
        old = file.read()
    new = turn(old)
    if new != old:
        with open(path, "w", encoding="utf-8") as file:
            file.write(new)


def main():
    for folder, below, files in os.walk("crates"):
        below[:] = sorted(name for name in below if name != "out")
        for name in files:
            path = os.path.join(folder, name)
            if name.endswith(".rt"):
                rewrite(path, source)
            elif name.endswith(".antt"):
                rewrite(path, function_proof if name == "Proof.antt" else lemma_file)
    for folder, _, files in os.walk("docs"):
        for name in files:
            if name.endswith(".md"):
                rewrite(os.path.join(folder, name), page)


main()
