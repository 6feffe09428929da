"""Gates that exporters write and the tables of `qroute` lack, as declarations over these tables.

`TABLE` has the declaration of each by its name, and each stands by itself: its body applies gates of `qelib1.inc` alone. Bodies
are those of Qiskit's `qelib1.inc` and standard gates, up to a global phase. `declare(text)` puts the declarations that a program
needs after its include.
"""

from __future__ import annotations

from . import qasm

C3X = (
    "h d; p(pi/8) a; p(pi/8) b; p(pi/8) c; p(pi/8) d; cx a,b; p(-pi/8) b; cx a,b; cx b,c; p(-pi/8) c; cx a,c; p(pi/8) c; cx b,c; "
    "p(-pi/8) c; cx a,c; cx c,d; p(-pi/8) d; cx b,d; p(pi/8) d; cx c,d; p(-pi/8) d; cx a,d; p(pi/8) d; cx c,d; p(-pi/8) d; "
    "cx b,d; p(pi/8) d; cx c,d; p(-pi/8) d; cx a,d; h d; "
)
C3SX = (
    "h d; cu1(pi/8) a,d; h d; cx a,b; h d; cu1(-pi/8) b,d; h d; cx a,b; h d; cu1(pi/8) b,d; h d; cx b,c; h d; "
    "cu1(-pi/8) c,d; h d; cx a,c; h d; cu1(pi/8) c,d; h d; cx b,c; h d; cu1(-pi/8) c,d; h d; cx a,c; h d; "
    "cu1(pi/8) c,d; h d; "
)
RELATIVE = "h c; t c; cx b,c; tdg c; cx a,c; t c; cx b,c; tdg c; h c; "
# name: parameters, qubits, body
_ROWS = {
    "u0": ("g", "a", "U(0,0,0) a; "),
    "r": ("t,p", "a", "u3(t,p-pi/2,pi/2-p) a; "),
    "v": ("", "a", "sx a; "),
    "vdg": ("", "a", "sxdg a; "),
    "dcx": ("", "a,b", "cx a,b; cx b,a; "),
    "cs": ("", "a,b", "cu1(pi/2) a,b; "),
    "csdg": ("", "a,b", "cu1(-pi/2) a,b; "),
    "csx": ("", "a,b", "h b; cu1(pi/2) a,b; h b; "),
    "csxdg": ("", "a,b", "h b; cu1(-pi/2) a,b; h b; "),
    "ccz": ("", "a,b,c", "h c; ccx a,b,c; h c; "),
    "iswap": ("", "a,b", "s a; s b; h a; cx a,b; cx b,a; h b; "),
    "iswapdg": ("", "a,b", "h b; cx b,a; cx a,b; h a; sdg b; sdg a; "),
    "ecr": ("", "a,b", "h b; cx a,b; u1(pi/4) b; cx a,b; h b; x a; h b; cx a,b; u1(-pi/4) b; cx a,b; h b; "),
    "rzz": ("t", "a,b", "cx a,b; u1(t) b; cx a,b; "),
    "rxx": ("t", "a,b", "h a; h b; cx a,b; u1(t) b; cx a,b; h a; h b; "),
    "ryy": ("t", "a,b", "rx(pi/2) a; rx(pi/2) b; cx a,b; u1(t) b; cx a,b; rx(-pi/2) a; rx(-pi/2) b; "),
    "rzx": ("t", "a,b", "h b; cx a,b; u1(t) b; cx a,b; h b; "),
    "crx": ("t", "a,b", "u1(pi/2) b; cx a,b; u3(-t/2,0,0) b; cx a,b; u3(t/2,-pi/2,0) b; "),
    "cry": ("t", "a,b", "ry(t/2) b; cx a,b; ry(-t/2) b; cx a,b; "),
    "cu3": ("t,p,l", "c,b", "u1((l+p)/2) c; u1((l-p)/2) b; cx c,b; u3(-t/2,0,-(p+l)/2) b; cx c,b; u3(t/2,p,0) b; "),
    "cu": ("t,p,l,g", "c,b", "u1(g) c; u1((l+p)/2) c; u1((l-p)/2) b; cx c,b; u3(-t/2,0,-(p+l)/2) b; cx c,b; u3(t/2,p,0) b; "),
    "xx_plus_yy": (
        "t,p",
        "a,b",
        "rz(p) a; sdg b; sx b; s b; s a; cx b,a; ry(-t/2) b; ry(-t/2) a; cx b,a; sdg a; sdg b; sxdg b; s b; rz(-p) a; ",
    ),
    "xx_minus_yy": (
        "t,p",
        "a,b",
        "rz(-p) b; sdg a; sx a; s a; s b; cx a,b; ry(t/2) a; ry(-t/2) b; cx a,b; sdg b; sdg a; sxdg a; s a; rz(p) b; ",
    ),
    "rccx": ("", "a,b,c", RELATIVE),
    "rcccx": ("", "a,b,c,d", "h d; t d; cx c,d; tdg d; h d; cx a,d; t d; cx b,d; tdg d; cx a,d; t d; cx b,d; tdg d; h d; t d; cx c,d; tdg d; h d; "),
    "c3x": ("", "a,b,c,d", C3X),
    "c3sqrtx": ("", "a,b,c,d", C3SX),
    "c4x": (
        "",
        "a,b,c,d,e",
        f"h e; cu1(pi/2) d,e; h e; {C3X}h e; cu1(-pi/2) d,e; h e; {C3X}{C3SX.replace('d;', 'e;')}",
    ),
}  # fmt: skip
# other names of the same
_SAME = {"rc3x": "rcccx", "mcx": "c3x", "c3sx": "c3sqrtx", "cv": "csx", "cvdg": "csxdg"}


def _written(name: str, params: str, qubits: str, body: str) -> str:
    return f"gate {name}{f'({params})' if params else ''} {qubits} {{ {body}}}"


TABLE: dict[str, str] = {name: _written(name, *row) for name, row in _ROWS.items()}
TABLE |= {name: _written(name, *_ROWS[other]) for name, other in _SAME.items()}


def declare(text: str) -> tuple[str, list[str]]:
    """The program with the declarations that it needs after its include, all else byte for byte; and the names declared."""
    borrowed = qasm.read(text, qasm.MOST_ITEMS, whole=True, known=TABLE).borrowed
    names = [name for name in TABLE if name in borrowed]
    listed = qasm.tokens(text, whole=True)
    for i, token in enumerate(listed[:-2]):
        if token.text == "include" and names:
            end = listed[i + 2].offset + 1
            return text[:end] + "".join(f"\n{TABLE[name]}" for name in names) + text[end:], names
    return text, []
