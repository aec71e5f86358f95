#!/usr/bin/env python3
"""Follows people through the frames of a camera.

A detector gives boxes (left, top, right, bottom), in any order. Two boxes of frames that follow
each other are the more likely one person the more they overlap: the cost of a pair is
1 - IoU (intersection over union), and a pair that doesn't overlap is forbidden. A track may also
end: for each track there is a column of its own at cost 1. The least-cost assignment then says
which box continues which track; all other boxes begin new ones.

The costs are doubles, and the library reads them exactly, so a tie isn't decided by rounding.
"""
import math

import mcf

FRAMES = [
    [(10, 10, 50, 90), (100, 12, 140, 95), (200, 8, 244, 90)],
    [(205, 9, 250, 91), (14, 11, 54, 92), (104, 10, 143, 93)],
    [(19, 12, 60, 93), (212, 10, 255, 92), (300, 10, 340, 88)],
    [(300, 11, 341, 89), (25, 12, 66, 94), (219, 11, 261, 93)],
]


def overlap(first, second):
    """Intersection over union of two boxes."""
    width = min(first[2], second[2]) - max(first[0], second[0])
    height = min(first[3], second[3]) - max(first[1], second[1])
    both = max(0, width) * max(0, height)
    areas = [(b[2] - b[0]) * (b[3] - b[1]) for b in (first, second)]
    return both / (sum(areas) - both)


def costs_of(tracks, boxes):
    """A row for each track: a column for each box, and then one for each track that may end."""
    shared = [[overlap(track, box) for box in boxes] for track in tracks]
    return [
        [1 - part if part else math.inf for part in row]
        + [1.0 if k == end else math.inf for end in range(len(tracks))]
        for k, row in enumerate(shared)
    ]


def main():
    tracks, count = {}, 0
    for number, boxes in enumerate(FRAMES, 1):
        names = list(tracks)
        rows, columns = (
            mcf.linear_sum_assignment(costs_of(tracks.values(), boxes)) if names else ([], [])
        )
        of_box = {j: names[i] for i, j in zip(rows, columns) if j < len(boxes)}
        for box in range(len(boxes)):
            if box not in of_box:
                count += 1
                of_box[box] = f"person {count}"
        tracks = {of_box[box]: boxes[box] for box in range(len(boxes))}
        print(f"frame {number}: " + ", ".join(of_box[box] for box in range(len(boxes))))


if __name__ == "__main__":
    main()
