"""The blocks of a layer that `stages` tells: drawn parities fall into so many, by a search of all ways, and into no fewer."""

import concurrent.futures
import os
import re
import subprocess
import sys

from tool import TOP, ToolTest

sys.path.insert(0, os.path.join(TOP, "tools", "lib"))
import built
from cases import HEADING

TOLD = re.compile(rb"layer 1 gates \d+ parities (\d+) blocks (\d+) ")


def following(number):
    """The next number of Marsaglia's xorshift generator."""
    number ^= number << 13 & 0xFFFFFFFF
    number ^= number >> 17
    return number ^ number << 5 & 0xFFFFFFFF


def drawn_rows(wires, seed):
    """Different sets of so many wires, as bits: sums of four drawn ones, and now and then of a fifth."""
    number, parts, found = seed, [], []
    for _ in range(5):
        number = following(number)
        parts.append(number % (1 << wires))
    for _ in range(12):
        number = following(number)
        row = 0
        for k, part in enumerate(parts):
            if number >> k & 1 and (k < 4 or number >> 5 & 1):
                row ^= part
        if row and row not in found:
            found.append(row)
    return found


def text_of(wires, rows):
    """A layer with a T gate on each row."""
    lines = [f"qreg q[{wires}];"]
    for row in rows:
        first, *others = [it for it in range(wires) if row >> it & 1]
        sums = [f"cx q[{it}],q[{first}];" for it in others]
        lines += [*sums, f"t q[{first}];", *sums]
    return HEADING + "\n".join([*lines, ""]).encode()


def reduced(row, basis):
    """What is left of a row without its pivots."""
    for it in basis:
        row = min(row, row ^ it)
    return row


def fits(rows, blocks, spares):
    """Whether rows go into blocks, each its basis and how many rows it has more than its rank, at most as many as there are spares."""
    if not rows:
        return True
    row, *others = rows
    for i, (basis, more) in enumerate(blocks):
        left = reduced(row, basis)
        if left:
            block = (sorted([*basis, left], reverse=True), more)
        elif more < spares:
            block = (basis, more + 1)
        else:
            continue
        if fits(others, [*blocks[:i], block, *blocks[i + 1 :]], spares):
            return True
        if not basis and not more:
            # one empty block is as good as another
            return False
    return False


def fewest(rows, spares):
    return next(it for it in range(len(rows) + 1) if fits(rows, [([], 0)] * it, spares))


class Blocks(ToolTest):
    def setUp(self):
        super().setUp()
        self.program = built.program()
        if self.program is None:
            self.skipTest("there is no built program")

    def has_fewest(self, wires, rows, spares):
        words = ["stages", *(["--spares", str(spares)] if spares else [])]
        found = subprocess.run([self.program, *words], input=text_of(wires, rows), capture_output=True, timeout=60)
        told = TOLD.match(found.stdout)
        self.assertIsNotNone(told, (words, rows, found))
        self.assertEqual(tuple(map(int, told.groups())), (len(rows), fewest(rows, spares)), (words, rows))

    def each(self, rows):
        with concurrent.futures.ThreadPoolExecutor(os.cpu_count()) as pool:
            for _ in pool.map(lambda it: self.has_fewest(*it), rows):
                pass

    def test_no_fewer_blocks(self):
        """Up to twelve rows of 4 to 10 wires, eight times each."""
        drawn = [(wires, seed * 7919 + wires) for wires in range(4, 11) for seed in range(1, 9)]
        self.each([(wires, drawn_rows(wires, seed), 0) for wires, seed in drawn])

    def test_no_fewer_blocks_with_spares(self):
        """Up to nine rows of 3 to 6 wires, with one to three spares, eight times each."""
        drawn = [(wires, seed * 7919 + wires) for wires in range(3, 7) for seed in range(1, 9)]
        self.each([(wires, drawn_rows(wires, seed)[:9], spares) for wires, seed in drawn for spares in (1, 2, 3)])
