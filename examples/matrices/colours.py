#!/usr/bin/env python3
"""Gives a picture the colours of another.

A palette has the colours (red, green, blue) of a picture, with the number of pixels of each. A
transport plan says how many pixels of which colour take which colour of the other palette. The cost
of a pixel is the square of the distance that its colour moves, so that the least-cost plan changes
the picture as little as possible. Each colour then becomes the mean of the colours that its pixels
take.
"""
import mcf

DAY = {(250, 250, 245): 30, (130, 180, 235): 50, (90, 140, 60): 40, (60, 60, 60): 20}
EVENING = {(255, 200, 140): 45, (200, 90, 80): 35, (70, 50, 90): 40, (25, 20, 40): 20}


def square_distance(first, second):
    """The square of the distance of two colours."""
    return sum((a - b) ** 2 for a, b in zip(first, second))


def mean(parts):
    """The mean colour of pixels: pairs of a colour and a number."""
    count = sum(number for _, number in parts)
    return tuple(round(sum(c[k] * number for c, number in parts) / count) for k in range(3))


def main():
    colours, wanted = list(DAY), list(EVENING)
    costs = [[square_distance(colour, other) for other in wanted] for colour in colours]
    plan = mcf.transport(costs, list(DAY.values()), list(EVENING.values()))
    for i, colour in enumerate(colours):
        parts = [(wanted[j], amount) for row, j, amount in plan.shipments if row == i]
        taken = ", ".join(f"{amount} {other}" for other, amount in parts)
        print(f"{colour} becomes {mean(parts)}: {taken}")
    print(f"sum of squares: {plan.cost}")


if __name__ == "__main__":
    main()
