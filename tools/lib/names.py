"""Names in a program's text that mean nothing, for tools that say which one a refusal means."""

import qasm

FUNCTIONS = {"sin", "cos", "tan", "exp", "ln", "sqrt"}
LANGUAGE = {"measure", "barrier", "reset", "U", "CX"}


def unknown(text, number):
    """The token of the first name that means nothing in a statement, counted from 1 after the header; None if none is found."""
    try:
        listed = list(statements(qasm.tokens(text)))
    except qasm.Fault:
        return None
    gates, registers = set(), set()
    for tokens in listed[1:number]:
        declare(tokens, gates, registers)
    if not 0 < number < len(listed):
        return None
    return first_unknown(listed[number], gates, registers)


def statements(tokens):
    """The tokens of each statement, the header's among them, without what ends it."""
    found = []
    depth = 0
    for token in tokens:
        found.append(token)
        depth += {"{": 1, "}": -1}.get(token.text, 0)
        if depth == 0 and token.text in (";", "}"):
            yield found
            found = []


def declare(tokens, gates, registers):
    """Adds what a statement declares."""
    word = tokens[0].text
    if word == "include":
        gates |= set(qasm.library())
    elif len(tokens) > 1 and word in ("gate", "opaque"):
        gates.add(tokens[1].text)
    elif len(tokens) > 1 and word in ("qreg", "creg"):
        registers.add(tokens[1].text)


def first_unknown(tokens, gates, registers):
    """The first name of a statement that means nothing."""
    word = tokens[0].text
    if word in ("include", "qreg", "creg", "opaque"):
        return None
    if word == "gate":
        return unknown_in_body(tokens, gates)
    if word == "if":
        behind = next((i for i, it in enumerate(tokens) if it.text == ")"), len(tokens))
        condition = [it for it in tokens[2:behind] if it.kind == "word" and it.text not in registers | gates]
        return condition[0] if condition else unknown_in_line(tokens[behind + 1 :], gates, set(), registers | gates)
    return unknown_in_line(tokens, gates, set(), registers | gates)


def unknown_in_body(tokens, gates):
    begins = next((i for i, it in enumerate(tokens) if it.text == "{"), len(tokens))
    closes = next((i for i, it in enumerate(tokens[:begins]) if it.text == ")"), 1)
    params = {it.text for it in tokens[2:closes] if it.kind == "word"}
    qubits = {it.text for it in tokens[closes + 1 : begins] if it.kind == "word"}
    line = []
    for token in tokens[begins + 1 :]:
        line.append(token)
        if token.text == ";":
            found = unknown_in_line(line, gates, params, qubits)
            if found:
                return found
            line = []
    return None


def unknown_in_line(tokens, gates, params, operands):
    """The first name that means nothing in the application of a gate, or in a statement of the language."""
    depth = 0
    for i, token in enumerate(tokens):
        depth += {"(": 1, ")": -1}.get(token.text, 0)
        if token.kind != "word":
            continue
        known = operands if depth == 0 else params | FUNCTIONS | {"pi"}
        if i == 0:
            known = gates | LANGUAGE
        if token.text not in known:
            return token
    return None
