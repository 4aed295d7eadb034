#!/usr/bin/env python3
"""Respells the repository's own definitions, lemmas and record fields, once, after the toolchain's port.

    python3 tools/respell.py        at the top of the repository, on text that has not been respelled

A definition or a lemma in camel case goes to snake case (mostInvestees: most_investees), and the fields of records in
specs/ lose their dashes (ids-differ: ids_differ). A lemma keeps the dash between a function and what it is applied to
(if_open-none). Types, modules, facts and the functions of src/ keep their names, and so does what stands in quotes.
"""
import pathlib
import re

FIELDS = set("""
a-place-for-each-month a-source's-fault-unchanged above-zero all-to-the-first-branch amounts-above-zero at-first
at-first-under-rule balances-within-limit base-above-zero base-in-range base-none base-within-limit bases-given
bases-in-range bond-at-its-denominator bond-past-its-denominator bonds-within-denominator book-of-these book-total
book-total-near-exact-sum book-total-of-an-empty-book branch-in-range branches-add-up-to-total branches-differ
branches-in-range by-a-call by-a-call-under-rule bytes-are cap-taken-by-each-branch counted-within-limit days-to
divided-by-months-posted each-accepted each-branch-rounded-by-itself each-position-on-one-investee energy-bill
estimate-larger estimate-largest every-call-accepted every-part-zero exposure-5999 exposure-6000 exposure-within-base
exposure-within-limit exposures-120000-and-60000 exposures-within-limit fault-below few-investees few-posts
figure-within-limit figures-to figures-within-limits first-of-two-bad from-the-start going-on grade-from grade-to
grade-within-limit halves-of-1 id-from id-to ids-differ if-given if-not in-closing-month in-range initial-value
investee-digits investees-add-up-to-total investees-in-range investees-within-limit kilograms-not-below-zero
kilograms-within-limit kind-from kind-to line-is mark-neither mark-three mean-grade mean-larger none-at-all
none-before not-below not-repaid nothing-unless-counted nothing-without-exposure of-a-portfolio of-each-investee
of-emissions of-reductions offset-above offset-all offset-larger once-per-branch output-larger overseas-above
overseas-all overseas-larger overseas-negative part-near-exact-share parts-add-up-to-sheet parts-add-up-to-total
positions-differ positions-in-range positions-on-open-investees positions-within-limit post-digits
projects-and-rest-make-all quantity-larger quantity-largest reason-in-range reasons-in-range reduced-within-limit
reduction-within-limit repaid-before-the-last-month report-larger report-largest same-days same-figures same-id
same-kind same-sector same-size sector-larger sector-largest sector-to sheets-add-up-to-book-total short-lines
sixteenth-bad size-from size-to terms-none terms-seventeen terms-sixteen thirds-of-1000 too-much-coal total-assets
total-is-figure-iff-exposures-reach total-of-the-loan total-of-the-project total-of-the-small-loan total-within-figure
totals-add-up-to-book-total tried-in-order under-its-guide under-its-rule when-amending when-amending-a-bond
when-asking when-opening when-opening-in-a-full-book when-posting when-posting-in-a-full-book when-posting-on-a-bond
when-restating with-its-history within-limit
""".split())

# Units of measure, in comments.
KEPT = {"kWh"}

NAME = re.compile(r"\"(?:[^\"\\\n]|\\.)*\"|(?<!\\)[A-Za-z_][A-Za-z0-9_'\-]*")
CAMEL = re.compile(r"[a-z][a-z0-9_]*[A-Z]")


def snake(part):
    if part in KEPT or not CAMEL.match(part):
        return part
    return re.sub(r"(?<=[a-z0-9])([A-Z])", lambda m: "_" + m.group(1).lower(), part)


def respelled(match):
    name = match.group(0)
    if name.startswith('"'):
        return name
    if name in FIELDS:
        return name.replace("-", "_")
    return "-".join(snake(part) for part in name.split("-"))


def main():
    crates = pathlib.Path("crates")
    for kind in ("*.antt", "*.rt", "*.edit"):
        for path in sorted(crates.rglob(kind)):
            if "out" in path.parts:
                continue
            text = path.read_text()
            new = NAME.sub(respelled, text)
            if new != text:
                path.write_text(new)


main()
