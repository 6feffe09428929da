"""Angles near multiples of pi/4, and how angles are spelled.

Exporters write pi/4 as 0.785398163397448; `qroute` takes exact angles alone. `exact_angles(text)` makes those exact that are
within 1e-9 of a multiple, and tells each. Only angles of the tables' own gates and of exporters' gates (`declarations.TABLE`)
become exact: a program's own gate may multiply what it is given.
"""

from __future__ import annotations

import bisect
import dataclasses
import fractions
import math
import typing

from . import qasm

WITHIN = 1e-9
MOST = 64  # the largest multiple of pi/4 that a decimal is taken for

MOST_WITHIN = math.pi / 8  # no angle is farther from a multiple of pi/4

Angle = typing.Any  # a pair of fractions, a plain one and one of pi, or a float


@dataclasses.dataclass(frozen=True)
class Change:
    """An angle that was made exact: its place, what the text had, what it is now, and how far apart the two are."""

    line: int
    column: int
    was: str
    now: str
    distance: float


def look_at_within(within: float) -> None:
    """Raises ValueError if `within` is no distance that tells near angles from others."""
    if not 0 <= within < MOST_WITHIN:
        raise ValueError(f"within is {within}, and has to be at least 0 and less than pi/8, since no angle is farther from a multiple of pi/4")


def nearest(angle: Angle, within: float = WITHIN) -> tuple[Angle, float]:
    """The multiple of pi/4 within so much of an angle that isn't one, and how far it is; else the angle itself, and 0."""
    if qasm.eighths(angle) is not None:
        return angle, 0.0
    value = qasm.as_float(angle)
    k = round(value / (math.pi / 4)) if abs(value) < 1e3 else MOST + 1
    distance = abs(value - k * math.pi / 4)
    if within == 0 or abs(k) > MOST or distance > within:
        return angle, 0.0
    return (fractions.Fraction(0), fractions.Fraction(k, 4)), distance


def spelled(angle: Angle) -> str:
    """An angle as OpenQASM has it: a whole number or a fraction of pi as such, any other as the nearest double."""
    if not isinstance(angle, float) and angle[0] == 0 and angle[1] != 0:
        above, below = angle[1].numerator, angle[1].denominator
        head = {1: "pi", -1: "-pi"}.get(above, f"{above}*pi")
        return head if below == 1 else f"{head}/{below}"
    if not isinstance(angle, float) and angle[1] == 0 and angle[0].denominator == 1:
        return str(angle[0])
    value = qasm.as_float(angle)
    mantissa, _, exponent = repr(value).partition("e")
    return (mantissa if "." in mantissa else f"{mantissa}.0") + (f"e{exponent}" if exponent else "")


class Places:
    """Line and column, from 1, of each offset in a text."""

    def __init__(self, text: str) -> None:
        self.begins = [0] + [i + 1 for i, it in enumerate(text) if it == "\n"]
        self.text = text

    def of(self, offset: int) -> tuple[int, int]:
        line = bisect.bisect_right(self.begins, offset)
        before = self.text[self.begins[line - 1] : offset].encode("latin-1")
        return line, len(before.decode("utf-8", "replace")) + 1


def exact_angles(text: str, within: float = WITHIN) -> tuple[str, list[Change], list[str]]:
    """The program with such angles made exact, all else byte for byte; each change; and the angles that aren't multiples of pi/4.

    An angle of one of the program's own gates, or that depends on a gate's parameters, stays. ValueError if `within` isn't from 0
    to less than pi/8. The text has a character for each byte (`qasm.text_of`).
    """
    from . import declarations

    look_at_within(within)
    reader = qasm.ProgramReader(text, qasm.MOST_ITEMS, True, declarations.TABLE)
    borrowed = list(reader.all().borrowed.values())
    places, changes, left, parts, end = Places(text), [], [], [], 0
    for begins, ends, expression, gate in reader.angles:
        try:
            value = expression.value({})
        except (KeyError, ValueError):
            continue
        if gate.is_opaque:
            continue  # what it takes may be no angles
        is_of_tables = qasm.is_of_tables(gate) or any(it is gate for it in borrowed)
        found, distance = nearest(value, within) if is_of_tables else (value, 0.0)
        if found is not value:
            changes.append(Change(*places.of(begins), text[begins:ends], spelled(found), distance))
            parts += [text[end:begins], spelled(found)]
            end = ends
        elif qasm.eighths(value) is None:
            left.append(text[begins:ends])
    return "".join([*parts, text[end:]]), changes, left
