"""Pictures of grids, and of formulas with two free names."""
from __future__ import annotations

import io
from fractions import Fraction
from itertools import combinations
from typing import Any, Iterator

import matplotlib

matplotlib.use("Agg")

import numpy  # noqa: E402
from matplotlib.figure import Figure  # noqa: E402

from redlog import And, Atom, Binding, Congruence, Equivalent, Formula, Grid, Implies, Linear, Not, Or, Quantified, Relation, Replies, Theory, Truth  # noqa: E402

COLOUR = "#3b6ea5"
POINTS = 400
ON_LINE = 200
# Beyond these numbers nothing is drawn, and within them a window has some room around the corners of the region.
FURTHEST = 10_000


def picture_of(value: object, theory: Theory) -> bytes | None:
    """The picture of an answer as PNG, or None where there is nothing to draw."""
    if isinstance(value, Binding):
        value = value.formula
    if isinstance(value, Grid) and 1 <= len(value.axes) <= 2 and value.truths:
        return _drawn_grid(value)
    if isinstance(value, Formula) and not _has_quantifier(value) and len(value.free_names()) == 2:
        return _drawn_region(value, theory)
    return None


def _saved(figure: Figure) -> bytes:
    target = io.BytesIO()
    figure.savefig(target, format="png", dpi=80, bbox_inches="tight")
    return target.getvalue()


def _drawn_grid(grid: Grid) -> bytes:
    """A square for each point: the last axis goes to the right, the first one up."""
    figure = Figure(figsize=(4.5, 4.0 if len(grid.axes) == 2 else 1.2))
    axes = figure.subplots()
    across = grid.axes[-1]
    rows = grid.rows() if len(grid.axes) == 2 else [list(grid.truths)]
    axes.pcolormesh(numpy.arange(len(rows[0]) + 1), numpy.arange(len(rows) + 1), numpy.array(rows, dtype=float), cmap=_colours(), vmin=0, vmax=1, edgecolors="#dddddd")
    _ticks(axes.set_xticks, across.values())
    axes.set_xlabel(across.name)
    if len(grid.axes) == 2:
        _ticks(axes.set_yticks, grid.axes[0].values())
        axes.set_ylabel(grid.axes[0].name)
    else:
        axes.set_yticks([])
    return _saved(figure)


def _ticks(place: Any, values: list[Fraction]) -> None:
    step = max(1, len(values) // 8)
    shown = range(0, len(values), step)
    place([it + 0.5 for it in shown], [str(values[it]) for it in shown])


def _colours() -> Any:
    from matplotlib.colors import ListedColormap

    return ListedColormap(["white", COLOUR])


def _drawn_region(formula: Formula, theory: Theory) -> bytes:
    """Where the formula is true, in a window around the corners of its lines; whole points over the integers."""
    first, second = formula.free_names()
    (left, right), (low, high) = _window(formula, first, second)
    figure = Figure(figsize=(4.5, 4.0))
    axes = figure.subplots()
    if theory is Theory.INTEGERS:
        columns, rows = numpy.meshgrid(_whole(left, right), _whole(low, high))
        true = _truths(formula, {first: columns, second: rows})
        axes.plot(columns[~true], rows[~true], ".", color="#dddddd", markersize=3)
        axes.plot(columns[true], rows[true], "o", color=COLOUR, markersize=5)
    else:
        columns, rows = numpy.meshgrid(numpy.linspace(left, right, POINTS), numpy.linspace(low, high, POINTS))
        true = _truths(formula, {first: columns, second: rows})
        axes.contourf(columns, rows, true.astype(float), levels=[0.5, 1.5], colors=[COLOUR], alpha=0.6)
        for form in _lines(formula):
            _draw_line(axes, formula, form, (first, second), ((left, right), (low, high)))
    axes.set_xlim(left, right)
    axes.set_ylim(low, high)
    axes.set_xlabel(first)
    axes.set_ylabel(second)
    return _saved(figure)


def _draw_line(axes: Any, formula: Formula, form: Linear, names: tuple[str, str], ends: tuple[tuple[float, float], tuple[float, float]]) -> None:
    """The line of an atom: thin, and thick where the formula is true on it, which is calculated exactly."""
    factors = dict(form.factors)
    moving = names[0] if factors.get(names[1]) else names[1]
    fixed = names[1] if moving == names[0] else names[0]
    if not factors.get(fixed):
        return
    low, high = map(Fraction, ends[names.index(moving)])
    points = []
    for place in range(ON_LINE + 1):
        value = low + (high - low) * place / ON_LINE
        points.append({moving: value, fixed: -(factors.get(moving, Fraction(0)) * value + form.constant) / factors[fixed]})
    across, up = ([float(point[name]) for point in points] for name in names)
    axes.plot(across, up, color="#888888", linewidth=0.8)
    on = [formula.holds(point) for point in points]
    axes.plot([x if it else numpy.nan for x, it in zip(across, on)], [y if it else numpy.nan for y, it in zip(up, on)], color=COLOUR, linewidth=2.0)


def _whole(low: float, high: float) -> Any:
    return numpy.arange(int(numpy.ceil(low)), int(numpy.floor(high)) + 1)


def _window(formula: Formula, first: str, second: str) -> tuple[tuple[float, float], tuple[float, float]]:
    """The ends of the picture: all corners of the lines are in it, and some room around."""
    corners = [(0.0, 0.0)]
    forms = list(_lines(formula))[:60]
    axes = [Linear(((first, Fraction(1)),)), Linear(((second, Fraction(1)),))]
    for one, other in combinations([*forms, *axes], 2):
        corner = _meeting(one, other, first, second)
        if corner is not None and max(map(abs, corner)) <= FURTHEST:
            corners.append(corner)
    return _ends([it[0] for it in corners]), _ends([it[1] for it in corners])


def _ends(values: list[float]) -> tuple[float, float]:
    low, high = min(values), max(values)
    room = (high - low) * 0.15 or 5.0
    return low - room, high + room


def _meeting(one: Linear, other: Linear, first: str, second: str) -> tuple[float, float] | None:
    a, b = (dict(one.factors).get(name, Fraction(0)) for name in (first, second))
    c, d = (dict(other.factors).get(name, Fraction(0)) for name in (first, second))
    determinant = a * d - b * c
    if determinant == 0:
        return None
    return float((b * other.constant - d * one.constant) / determinant), float((c * one.constant - a * other.constant) / determinant)


def _parts(formula: Formula) -> tuple[Formula, ...]:
    if isinstance(formula, (And, Or)):
        return formula.parts
    if isinstance(formula, (Implies, Replies, Equivalent)):
        return (formula.left, formula.right)
    if isinstance(formula, Not):
        return (formula.part,)
    if isinstance(formula, Quantified):
        return (formula.body,)
    return ()


def _lines(formula: Formula) -> Iterator[Linear]:
    if isinstance(formula, Atom):
        yield formula.form
    for part in _parts(formula):
        yield from _lines(part)


def _has_quantifier(formula: Formula) -> bool:
    return isinstance(formula, Quantified) or any(map(_has_quantifier, _parts(formula)))


def _truths(formula: Formula, values: dict[str, Any]) -> Any:
    """The truths at many points at once, in floating point: good enough for a picture."""
    if isinstance(formula, Truth):
        return numpy.full(next(iter(values.values())).shape, formula.value)
    if isinstance(formula, Atom):
        return _compared(formula.relation, _numbers(formula.form, values))
    if isinstance(formula, Congruence):
        return (numpy.mod(_numbers(formula.form, values), formula.modulus) == 0) != formula.negated
    inside = [_truths(part, values) for part in _parts(formula)]
    if isinstance(formula, Not):
        return ~inside[0]
    if isinstance(formula, And):
        return numpy.logical_and.reduce(inside)
    if isinstance(formula, Or):
        return numpy.logical_or.reduce(inside)
    if isinstance(formula, Implies):
        return ~inside[0] | inside[1]
    if isinstance(formula, Replies):
        return inside[0] | ~inside[1]
    return inside[0] == inside[1]


def _numbers(form: Linear, values: dict[str, Any]) -> Any:
    total = float(form.constant) * numpy.ones(next(iter(values.values())).shape)
    for name, factor in form.factors:
        total = total + float(factor) * values[name]
    return total


def _compared(relation: Relation, numbers: Any) -> Any:
    if relation is Relation.EQUAL:
        return numbers == 0
    if relation is Relation.UNEQUAL:
        return numbers != 0
    if relation is Relation.BELOW:
        return numbers < 0
    if relation is Relation.AT_MOST:
        return numbers <= 0
    return numbers > 0 if relation is Relation.ABOVE else numbers >= 0
