"""What the pictures show, taken from the program's answers: nodes, depths, and the two walks step by step.
The program doesn't print index numbers or steps. Those are worked out here from the depths that it gave, and a walk
is drawn only if its result and its number of entries read are the program's."""

import os
import sys

sys.path.insert(0, os.path.join(os.path.dirname(os.path.abspath(__file__)), "../../examples"))
import house  # noqa: E402

BLOCK = 256


class Lineage:
    """A row with what the program answers about it."""

    def __init__(self, row):
        self.row = row
        self.openings = [i for i, sign in enumerate(row) if sign == "("]
        self.depth_of = dict(zip(self.openings, self.results([(1, a) for a in self.openings])))
        closings = [i for i, sign in enumerate(row) if sign == ")"]
        self.opening_of = dict(zip(closings, self.results([(5, a) for a in closings])))

    def answers(self, questions):
        return house.answers(self.row, questions)

    def results(self, questions):
        """The results alone; None for `no such node`."""
        return [None if code == 16 else result for code, result, _ in self.answers(questions)]

    def depths(self):
        """D at every boundary. Before an opening it is the node's depth; before a closing, one more than the depth of
        the node that is closed; at the end, 0."""
        inside = [self.depth_of[p] if p in self.depth_of else self.depth_of[self.opening_of[p]] + 1
                  for p in range(len(self.row))]
        return inside + [0]


def summary(depths, a, b):
    """Total, least, greatest and count of the bits from a up to b."""
    inside = [depths[p] - depths[a] for p in range(a + 1, b + 1)]
    if not inside:
        return (0, 0, 0, 0)
    return (inside[-1], min(inside), max(inside), inside.count(min(inside)))


class Index:
    def __init__(self, lineage):
        self.depths = lineage.depths()
        self.m = len(lineage.row)
        self.leaves = 1
        while self.leaves * BLOCK < self.m:
            self.leaves *= 2

    def height(self):
        return self.leaves.bit_length() - 1

    def stretch(self, k):
        """The bits that entry k stands for."""
        level = k.bit_length() - 1
        width = BLOCK * self.leaves >> level
        start = (k - (1 << level)) * width
        return min(start, self.m), min(start + width, self.m)

    def entry(self, k):
        return summary(self.depths, *self.stretch(k))


class Walk:
    """The entries that a walk comes by: `read` in order, `entered` without reading, and the two leaves scanned."""

    def __init__(self, index):
        self.index = index
        self.read, self.entered, self.steps = [], [], []
        self.first = self.last = self.found = None

    def reads(self, k, wanted, from_start):
        """Reads entry k and says whether the wanted depth lies in it."""
        total, least, greatest, count = self.index.entry(k)
        self.read.append(k)
        hit = count != 0 and least <= from_start <= greatest
        self.steps.append((k, wanted, hit))
        return hit, total

    def descend(self, k, t, forward):
        while k < self.index.leaves:
            near = 2 * k if forward else 2 * k + 1
            t, k = self.child(near, t, forward)
        return k

    def child(self, near, t, forward):
        total = self.index.entry(near)[0]
        hit, total = self.reads(near, t, t if forward else t + total)
        if hit:
            return t, near
        self.entered.append(near ^ 1)
        return (t - total if forward else t + total), near ^ 1

    def climb(self, k, t, forward):
        """The leaf to scan and None, or None and what is still wanted at entry 1."""
        while k != 1:
            if k % 2 == (0 if forward else 1):
                other = k ^ 1
                hit, total = self.reads(other, t, t if forward else t + self.index.entry(other)[0])
                if hit:
                    return self.descend(other, t, forward), None
                t = t - total if forward else t + total
            k //= 2
        return None, t


def forward(index, p, t):
    """The first boundary after p with depth D(p)+t."""
    walk, depths = Walk(index), index.depths
    wanted, leaf = depths[p] + t, index.leaves + p // BLOCK
    walk.first, end = leaf, index.stretch(leaf)[1]
    walk.found = next((q for q in range(p + 1, end + 1) if depths[q] == wanted), None)
    if walk.found is None:
        walk.last, _ = walk.climb(leaf, wanted - depths[end], True)
        if walk.last is not None:
            start, end = index.stretch(walk.last)
            walk.found = next(q for q in range(start + 1, end + 1) if depths[q] == wanted)
    return walk


def backward(index, p, t):
    """The last boundary before p with depth D(p)+t."""
    walk, depths = Walk(index), index.depths
    wanted, leaf = depths[p] + t, index.leaves + (p - 1) // BLOCK
    walk.first, start = leaf, index.stretch(leaf)[0]
    walk.found = next((q for q in range(p - 1, start, -1) if depths[q] == wanted), None)
    if walk.found is None:
        walk.last, left = walk.climb(leaf, wanted - depths[start], False)
        if walk.last is not None:
            start, end = index.stretch(walk.last)
            walk.found = next(q for q in range(end, start, -1) if depths[q] == wanted)
        elif left == 0:
            walk.found = 0
    return walk


def hold(lineage, question, walk, result):
    """Fails unless the program says the same as the walk that is drawn."""
    code, said, reads = lineage.answers([question])[0]
    if (code, said, reads) != (0, result, len(walk.read)):
        sys.exit(f"question {question}: the program says {code} {said} {reads}, the walk {result} {len(walk.read)}")
    return reads
