"""The occupied parts of a picture, so that no label covers them."""
import collections
import math

# The width of the squares by which rectangles are indexed.
SQUARE = 64


class Room:
    """Rectangles by their edges: left, top, right and bottom."""

    def __init__(self):
        self.taken = collections.defaultdict(list)

    def take(self, edges):
        """Marks a rectangle as occupied."""
        for square in squares_of(edges):
            self.taken[square].append(edges)

    def is_free(self, edges):
        """Whether a rectangle overlaps no occupied one."""
        left, top, right, bottom = edges
        return not any(
            other[0] < right and left < other[2] and other[1] < bottom and top < other[3]
            for square in squares_of(edges)
            for other in self.taken.get(square, ())
        )

    def first(self, spots, size):
        """Occupies the first spot where a rectangle of this size is free, and returns it, or None
        if there is none."""
        wide, high = size
        for x, y in spots:
            edges = x - wide / 2, y - high / 2, x + wide / 2, y + high / 2
            if self.is_free(edges):
                self.take(edges)
                return x, y
        return None

    def bounds(self):
        """The edges of all that is occupied."""
        found = [edges for several in self.taken.values() for edges in several]
        sides = list(zip(*found))
        return min(sides[0]), min(sides[1]), max(sides[2]), max(sides[3])


def squares_of(edges):
    """The squares that a rectangle touches."""
    left, top, right, bottom = (math.floor(edge / SQUARE) for edge in edges)
    return [(x, y) for x in range(left, right + 1) for y in range(top, bottom + 1)]
