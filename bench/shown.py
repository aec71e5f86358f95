#!/usr/bin/env python3
"""Makes an instance of the minimum-cost flow problem, and an answer whose prices show it to be
optimal.

    python3 bench/shown.py NODES ARCS INSTANCE ANSWER [--seed S]

The script chooses prices first. Then each arc gets a cost, and its reduced cost determines a flow
for which the prices are a certificate. The supplies are those that the flow meets. So the answer is
correct for any arcs. The same words always give the same bytes.
"""
import argparse
import random


def main():
    parser = argparse.ArgumentParser(
        description="makes an instance and an answer that is right for it"
    )
    parser.add_argument("nodes", type=int)
    parser.add_argument("arcs", type=int)
    parser.add_argument("instance")
    parser.add_argument("answer")
    parser.add_argument("--seed", type=int, default=1)
    words = parser.parse_args()
    rnd = random.Random(words.seed).random
    prices = [0] + [-int(rnd() * 100_000) for _ in range(words.nodes)]
    supplies = [0] * (words.nodes + 1)
    cost = 0
    arc_lines, flow_lines = [], []
    for _ in range(words.arcs):
        source = 1 + int(rnd() * words.nodes)
        target = 1 + int(rnd() * words.nodes)
        cap = 1 + int(rnd() * 10_000)
        reduced = int(rnd() * 2_001) - 1_000
        unit = prices[source] - prices[target] + reduced
        flow = 0 if reduced > 0 else cap if reduced < 0 else int(rnd() * (cap + 1))
        cost += unit * flow
        supplies[source] += flow
        supplies[target] -= flow
        arc_lines.append(f"a {source} {target} 0 {cap} {unit}\n")
        flow_lines.append(f"f {source} {target} {flow}\n")
    with open(words.instance, "w") as out:
        out.write(f"p min {words.nodes} {words.arcs}\n")
        out.writelines(f"n {v} {b}\n" for v, b in enumerate(supplies) if v and b)
        out.writelines(arc_lines)
    with open(words.answer, "w") as out:
        out.write(f"s {cost}\n")
        out.writelines(flow_lines)
        out.writelines(f"y {v} {y}\n" for v, y in enumerate(prices) if v)


if __name__ == "__main__":
    main()
