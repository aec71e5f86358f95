"""Texts with one byte changed: the checker accepts exactly what a plain judge finds right.
`library.py` runs this."""
import re
import unittest

import mcf

INSTANCE = b"""p min 4 5
n 1 4
n 4 -4
a 1 2 0 4 2
a 1 3 0 2 2
a 2 3 0 2 1
a 2 4 0 3 3
a 3 4 0 5 1
"""
ANSWER = b"s 14\nf 1 2 2\nf 1 3 2\nf 2 3 2\nf 2 4 0\nf 3 4 4\ny 1 0\ny 2 -2\ny 3 -3\ny 4 -4\n"
# The bytes that are put in.
BYTES = b"0123456789 -+.\n\t\rpnacsfyixr\x00\x7f\x80\xc3\xff_"
NODES, ARCS, BOUND, COST, TOTAL = 10**6, 10**7, 10**18, 10**15, 10**37


class Wrong(Exception):
    """A text that isn't right."""


def need(holds):
    if not holds:
        raise Wrong


def number(field, least, most):
    """A whole number within a range."""
    need(re.fullmatch("[+-]?[0-9]+", field, re.ASCII))
    need(least <= int(field) <= most)
    return int(field)


def numbers(fields, *ranges):
    """The numbers of a line after its word."""
    need(len(fields) == 1 + len(ranges))
    return [number(field, *limits) for field, limits in zip(fields[1:], ranges)]


def lines(text):
    """The fields of each line that isn't blank and no comment."""
    try:
        rows = [line.split() for line in text.decode().split("\n")]
    except UnicodeDecodeError:
        raise Wrong from None
    return [fields for fields in rows if fields and not fields[0].startswith("c")]


def instance_of(text):
    """The supplies by node, and the arcs."""
    rows = lines(text)
    need(rows and rows[0][:2] == ["p", "min"])
    nodes, count = numbers(rows[0][1:], (0, NODES), (0, ARCS))
    node, bound = (1, nodes), (-BOUND, BOUND)
    supplies, arcs = {}, []
    for fields in rows[1:]:
        if fields[0] == "a":
            arcs.append(numbers(fields, node, node, bound, bound, (-COST, COST)))
            need(arcs[-1][2] <= arcs[-1][3])
        else:
            need(fields[0] == "n" and not arcs)
            v, supply = numbers(fields, node, bound)
            need(v not in supplies)
            supplies[v] = supply
    need(len(arcs) == count)
    return [supplies.get(v, 0) for v in range(1, nodes + 1)], arcs


def answer_of(text):
    """The cost, the flow lines and the prices."""
    rows, total, node = lines(text), (-TOTAL, TOTAL), (1, NODES)
    need(rows and rows[0][0] == "s")
    (cost,) = numbers(rows[0], total)
    flows, prices = [], []
    for fields in rows[1:]:
        if fields[0] == "f":
            need(not prices)
            flows.append(numbers(fields, node, node, total))
        else:
            need(fields[0] == "y")
            v, price = numbers(fields, node, total)
            prices.append(price)
            need(v == len(prices))
    return cost, flows, prices


def is_right(instance, answer):
    """Whether the answer is a right flow answer, arc by arc and node by node."""
    try:
        supplies, arcs = instance_of(instance)
        cost, flows, prices = answer_of(answer)
        need(len(flows) == len(arcs) and len(prices) == len(supplies))
        left = list(supplies)
        for (u, v, low, cap, unit), (tail, head, flow) in zip(arcs, flows):
            need((u, v) == (tail, head) and low <= flow <= cap)
            reduced = unit - prices[u - 1] + prices[v - 1]
            need((reduced <= 0 or flow == low) and (reduced >= 0 or flow == cap))
            left[u - 1] -= flow
            left[v - 1] += flow
        need(not any(left) and cost == sum(a[4] * f[2] for a, f in zip(arcs, flows)))
    except Wrong:
        return False
    return True


def edits(text):
    """The text with one byte taken out, replaced, or put in."""
    for place in range(len(text)):
        yield text[:place] + text[place + 1 :]
        for byte in BYTES:
            for after in (place, place + 1):
                yield text[:place] + bytes([byte]) + text[after:]


class Edited(unittest.TestCase):
    def test_one_byte(self):
        """No such text has a blocking set or a refusal for its right answer."""
        self.assertTrue(is_right(INSTANCE, ANSWER))
        pairs = [(text, ANSWER) for text in edits(INSTANCE)]
        pairs += [(INSTANCE, text) for text in edits(ANSWER)]
        found = [is_right(*pair) for pair in pairs]
        self.assertEqual([mcf.check_text(*pair).accepted for pair in pairs], found)
        self.assertGreater(len(pairs), 10_000)
        self.assertGreater(sum(found), 300)
