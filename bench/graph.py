"""The decomposition graph of a layer without ties (RULES 2), its core (RULES 4) and its components (RULES 5), so that a solver can be given each
component by itself."""
from layers import MARGIN, SPACING


def is_conflict(a, b, ox, oy):
    return a[0] != b[0] and max(-ox, 0) ** 2 + max(-oy, 0) ** 2 < SPACING**2


def is_stitch(a, b, ox, oy):
    contact = (oy if ox == 0 else ox if oy == 0 else 0) if a[0] == b[0] else 0
    if 0 < contact < MARGIN:
        raise ValueError("tied pieces: a vertex here is a piece, not a unit")
    return contact >= MARGIN


def graph(pieces):
    """For each piece the set of those that conflict with it, and the set of those that are stitched to it."""
    conflicts = [set() for _ in pieces]
    stitches = [set() for _ in pieces]
    for j, b in enumerate(pieces):
        for i, a in enumerate(pieces[:j]):
            ox, oy = min(a[3], b[3]) - max(a[1], b[1]), min(a[4], b[4]) - max(a[2], b[2])
            for near, joined in ((conflicts, is_conflict), (stitches, is_stitch)):
                if joined(a, b, ox, oy):
                    near[i].add(j)
                    near[j].add(i)
    return conflicts, stitches


def core(conflicts, stitches, masks, fixed):
    """What is left when no piece may go. A piece that may go still may when others are gone, so they can go together. One with a fixed mask
    stays."""
    there = set(range(len(conflicts)))

    def may_go(v):
        stitched = len(stitches[v] & there)
        near = len(conflicts[v] & there)
        return v not in fixed and (stitched == 0 and near < masks or stitched == 1 and near == 0)

    while gone := {v for v in there if may_go(v)}:
        there -= gone
    return there


def components(conflicts, stitches, there):
    left = set(there)
    found = []
    for v in sorted(there):
        if v in left:
            left.discard(v)
            members = [v]
            for u in members:
                reached = (conflicts[u] | stitches[u]) & left
                left -= reached
                members += sorted(reached)
            found.append(sorted(members))
    return found


def cliques(conflicts, members):
    """The largest sets of pieces that all conflict with each other: those that no other piece can join."""
    inside = set(members)
    found = []

    def grow(clique, may_join, excluded):
        if not may_join and not excluded:
            found.append(sorted(clique))
            return
        pivot = max(may_join | excluded, key=lambda v: len(conflicts[v] & may_join))
        for v in sorted(may_join - conflicts[pivot]):
            grow(clique | {v}, may_join & conflicts[v], excluded & conflicts[v])
            may_join = may_join - {v}
            excluded = excluded | {v}

    grow(set(), inside, set())
    return found
