#!/usr/bin/env python3
"""random_scripts.py [COUNT [SEED]]: asks redlog-smt2, z3 and cvc5 COUNT (200) random scripts, and compares their answers check by check.

A script is of one of the linear logics. It has Bool names, ite, xor, distinct, let, abs, div, mod, defined functions, functions of no definition, quantifiers,
levels and assumptions, as its logic allows. Where one program says sat and another unsat, the run ends with status 1. So it does where z3 finds that
the values of redlog-smt2's get-value do not make true what is asserted, or that what is left of its unsat core can be true.
"""
from __future__ import annotations

import collections
import os
import random
import re
import shutil
import subprocess
import sys
from dataclasses import dataclass, field

HERE = os.path.dirname(os.path.realpath(__file__))
SOLVER = os.path.join(HERE, "..", "redlog-smt2")
VERDICTS = ("sat", "unsat", "unknown", "timeout")


@dataclass
class Making:
    """What a script may use, and what it has so far."""

    logic: str
    numbers: list[str] = field(default_factory=list)
    formulas: list[str] = field(default_factory=list)
    elements: list[str] = field(default_factory=list)
    functions: bool = False
    mixed: bool = False

    @property
    def whole(self) -> bool:
        return "I" in self.logic.replace("LIRA", "LI")

    @property
    def sort(self) -> str:
        return "Int" if self.whole else "Real"

    @property
    def quantifiers(self) -> bool:
        return not self.logic.startswith("QF_")


def numeral(making: Making, value: int) -> str:
    """A number of the logic's sort."""
    text = str(abs(value)) if making.whole else f"{abs(value)}.0"
    return text if value >= 0 else f"(- {text})"


def number(making: Making, depth: int, names: list[str]) -> str:
    """A random number term."""
    if depth == 0 or random.random() < 0.3:
        return random.choice(names) if names and random.random() < 0.75 else numeral(making, random.randint(-7, 7))
    kind = random.choice(["+", "+", "-", "*", "*", "ite", "special", "special", "let", "function"])
    inner = lambda: number(making, depth - 1, names)  # noqa: E731
    if kind == "function" and making.functions:
        return random.choice([f"(f {inner()})", f"(w {element(making)})"])
    if kind == "ite":
        return f"(ite {formula(making, depth - 1, names, 0)} {inner()} {inner()})"
    if kind == "special":
        if making.mixed and random.random() < 0.3:
            return f"(to_int {real(making, depth - 1, names)})"
        if not making.whole:
            return f"(/ {inner()} {random.choice(['2.0', '3.0', '(- 4.0)'])})"
        return random.choice([f"(abs {inner()})", f"(div {inner()} {random.choice(['2', '3', '5', '(- 3)'])})", f"(mod {inner()} {random.choice(['2', '3', '4'])})"])
    if kind == "let":
        return f"(let ((l {inner()})) (+ l {number(making, depth - 1, [*names, 'l'])}))"
    if kind == "*":
        return f"(* {numeral(making, random.choice([-3, -2, 2, 3, 5]))} {inner()})"
    return f"({'-' if kind == '-' else '+'} {inner()} {inner()})"


def element(making: Making) -> str:
    """A random term of the declared sort."""
    names = ["s0", "s1", *making.elements]
    return random.choice([*names, *names, f"(h {random.choice(names)})", f"(h (h {random.choice(names)}))"])


def real(making: Making, depth: int, names: list[str]) -> str:
    """A random real term of a script that has whole numbers too."""
    if depth <= 0 or random.random() < 0.3:
        return random.choice(["r0", "r1", "0.5", "2.0", "(- 1.25)"])
    inner = lambda: real(making, depth - 1, names)  # noqa: E731
    return random.choice([f"(to_real {number(making, depth - 1, names)})", f"(+ {inner()} {inner()})", f"(* 2.5 {inner()})", f"(- {inner()})"])


def atom(making: Making, depth: int, names: list[str]) -> str:
    """A random comparison, or a Bool name."""
    if making.formulas and random.random() < 0.3:
        return random.choice(making.formulas)
    if making.mixed and random.random() < 0.4:
        relation = random.choice(["=", "<", "<=", "distinct"])
        return random.choice([f"(is_int {real(making, depth, names)})", f"({relation} {real(making, depth, names)} {real(making, depth, names)})"])
    if making.functions and random.random() < 0.15:
        return f"(= {element(making)} {element(making)})"
    if making.functions and random.random() < 0.15:
        return f"(q {number(making, depth, names)} {formula(making, 0, names, 0)})"
    relation = random.choice(["=", "<", "<=", ">", ">=", "distinct"])
    return f"({relation} {' '.join(number(making, depth, names) for _ in range(random.choice([2, 2, 2, 3])))})"


def formula(making: Making, depth: int, names: list[str], quantifiers: int) -> str:
    """A random formula."""
    if depth == 0 or random.random() < 0.1:
        return atom(making, random.randint(0, 2), names)
    kind = random.choice(["and", "or", "not", "=>", "xor", "=", "ite", "let", "and", "or", "forall", "exists"])
    inner = lambda: formula(making, depth - 1, names, quantifiers)  # noqa: E731
    if kind in ("forall", "exists"):
        if not quantifiers:
            return atom(making, depth, names)
        if making.functions and random.random() < 0.3:
            making.elements.append("e")
            inside = formula(making, depth - 1, names, quantifiers - 1)
            making.elements.pop()
            return f"({kind} ((e S)) {inside})"
        name = random.choice(["u", "v"])
        return f"({kind} (({name} {making.sort})) {formula(making, depth - 1, sorted({*names, name}), quantifiers - 1)})"
    if kind == "not":
        return f"(not {inner()})"
    if kind == "ite":
        return f"(ite {inner()} {inner()} {inner()})"
    if kind == "let":
        return f"(let ((l {number(making, 1, names)})) {formula(making, depth - 1, sorted({*names, 'l'}), quantifiers)})"
    return f"({kind} {' '.join(inner() for _ in range(2 if kind in ('xor', '=') else random.randint(2, 3)))})"


def script() -> tuple[Making, list[str]]:
    """A random script: its lines up to the questions about its last check."""
    making = Making(random.choice(["QF_LIA", "QF_LRA", "LIA", "LRA", "QF_UFLIA", "QF_UFLRA", "UFLIA", "UFLRA", "QF_LIRA", "LIRA"]))
    making.functions, making.mixed = "UF" in making.logic, "LIRA" in making.logic
    lines = [f"(set-logic {making.logic})"]
    making.numbers = [f"x{it}" for it in range(random.randint(1, 4))]
    making.formulas = [f"p{it}" for it in range(random.randint(0, 3))]
    lines += [f"(declare-fun {it} () {making.sort})" for it in making.numbers]
    lines += [f"(declare-const {it} Bool)" for it in making.formulas]
    if making.functions:
        lines += ["(declare-sort S 0)", "(declare-const s0 S)", "(declare-const s1 S)", "(declare-fun h (S) S)", f"(declare-fun w (S) {making.sort})"]
        lines += [f"(declare-fun f ({making.sort}) {making.sort})", f"(declare-fun q ({making.sort} Bool) Bool)"]
    if making.mixed:
        lines += ["(declare-const r0 Real)", "(declare-const r1 Real)"]
    if random.random() < 0.4:
        lines.append(f"(define-fun g ((a {making.sort})) {making.sort} {number(making, 2, ['a', *making.numbers])})")
    has_function = lines[-1].startswith("(define-fun g")
    depth, named = 0, 0
    for _ in range(random.randint(2, 6)):
        it = random.random()
        if it < 0.12:
            lines.append("(push 1)")
            depth += 1
        elif it < 0.2 and depth:
            lines.append("(pop 1)")
            depth -= 1
        elif it < 0.3:
            lines.append("(check-sat)")
        else:
            asserted = formula(making, random.randint(1, 3), making.numbers, 2 if making.quantifiers else 0)
            if has_function and random.random() < 0.3:
                asserted = f"(and {asserted} (<= (g {number(making, 1, making.numbers)}) {number(making, 1, making.numbers)}))"
            if random.random() < 0.5:
                asserted = f"(! {asserted} :named n{named})"
                named += 1
            lines.append(f"(assert {asserted})")
    if making.formulas and random.random() < 0.3:
        given = " ".join(random.choice([it, f"(not {it})"]) for it in making.formulas)
        lines.append(f"(check-sat-assuming ({given}))")
    lines.append("(check-sat)")
    return making, lines


def run(words: list[str], text: str) -> list[str]:
    """What a program prints."""
    try:
        return subprocess.run(words, input=text, capture_output=True, text=True, timeout=60, check=False).stdout.splitlines()
    except subprocess.TimeoutExpired:
        return []


def verdicts(lines: list[str]) -> list[str]:
    return [it for it in lines if it in VERDICTS]


def asserted_at_end(lines: list[str], drop: frozenset[str] = frozenset()) -> str:
    """The script with the declarations and what is asserted at its end alone, but for the assertions with the dropped names."""
    levels: list[list[str]] = [[]]
    for line in lines:
        if line == "(push 1)":
            levels.append([])
        elif line == "(pop 1)":
            levels.pop()
        elif not line.startswith("(check-sat"):
            name = re.search(r":named (\w+)\)\)$", line)
            if not name or name[1] not in drop:
                levels[-1].append(line)
    return "\n".join(line for level in levels for line in level)


def wrong_values(making: Making, lines: list[str], answer: str) -> bool:
    """Whether z3 says that the values do not make true what is asserted."""
    values = re.findall(r"\((\w+) (true|false|\d+(?:\.\d+)?|\(.*?\)+?)\)(?= \(\w|\)$)", answer)
    equal = "\n".join(f"(assert (= {name} {value}))" for name, value in values)
    if len(values) != len(making.numbers) + len(making.formulas):
        raise ValueError(answer)
    return verdicts(run(["z3", "-T:5", "-in"], f"{asserted_at_end(lines)}\n{equal}\n(check-sat)\n"))[:1] == ["unsat"]


def core_is_wrong(lines: list[str], answer: str) -> bool:
    """Whether z3 says that the core, and what has no name, can be true."""
    core = frozenset(re.findall(r"\w+", answer))
    names = frozenset(name for line in lines for name in re.findall(r":named (\w+)\)\)$", line))
    return verdicts(run(["z3", "-T:5", "-in"], asserted_at_end(lines, names - core) + "\n(check-sat)\n"))[:1] == ["sat"]


def main() -> int:
    count, seed = int(sys.argv[1]) if len(sys.argv) > 1 else 200, int(sys.argv[2]) if len(sys.argv) > 2 else 1
    random.seed(seed)
    others = [(name, words) for name, words in (("z3", ["z3", "-T:3", "-in"]), ("cvc5", ["cvc5", "--lang=smt2", "--incremental", "--tlimit-per=1500"])) if shutil.which(name)]
    found: collections.Counter[str] = collections.Counter()
    for place in range(count):
        making, lines = script()
        text = "\n".join(lines) + "\n"
        names = " ".join([*making.numbers, *making.formulas])
        own = run([SOLVER, "--seconds", "5"], "(set-option :produce-unsat-cores true)\n" + text + f"(get-value ({names}))\n(get-unsat-core)\n")
        mine = verdicts(own)
        if len(mine) != sum(line.startswith("(check-sat") for line in lines):
            print(f"script {place}: an answer is missing\n{text}\n{own}")
            return 1
        found.update(f"redlog-smt2 {it}" for it in mine)
        for name, words in others:
            answered = run(words, text)
            theirs = verdicts(answered)
            found.update(f"{name} {it}" for it in theirs)
            if any("error" in it for it in answered):
                found[f"{name} error"] += 1
                continue
            for one, other in zip(mine, theirs):
                if {one, other} == {"sat", "unsat"}:
                    print(f"script {place}: redlog-smt2 says {mine}, {name} says {theirs}\n{text}")
                    return 1
                found[f"{name} agrees"] += one == other and one != "unknown"
        if shutil.which("z3"):
            told = next((it for it in own if it.startswith("((")), "")
            if mine[-1] == "sat" and wrong_values(making, lines, told):
                print(f"script {place}: wrong values {told}\n{text}")
                return 1
            if mine[-1] == "unsat" and core_is_wrong(lines, next(it for it in own if re.fullmatch(r"\((n\d+( n\d+)*)?\)", it))):
                print(f"script {place}: a wrong core {own}\n{text}")
                return 1
    print(f"{count} scripts, no two answers against each other: " + ", ".join(f"{key} {value}" for key, value in sorted(found.items())))
    return 0


sys.exit(main())
