"""A component as an integer program, in the LP format. Which mask a piece has is a binary variable for each mask; so is whether a conflict
edge or a stitch edge costs."""
from itertools import combinations

import graph
from layers import WEIGHT


def total(names):
    return " + ".join(names)


def least_conflicts(size, masks):
    """The least conflicts among so many pieces that all conflict: as equal a number on each mask as can be."""
    each, more = divmod(size, masks)
    return more * (each + 1) * each // 2 + (masks - more) * each * (each - 1) // 2


def clique_rows(found, masks):
    """What each clique costs at least, and each part of it that has one piece more than there are masks. Without these rows a solver that
    drops the demand for whole numbers sees no cost at all."""
    parts = {tuple(clique) for clique in found if len(clique) > masks}
    parts |= {part for clique in parts for part in combinations(clique, masks + 1)}
    return [total(f"c_{u}_{v}" for u, v in combinations(part, 2)) + f" >= {least_conflicts(len(part), masks)}" for part in sorted(parts)]


def mask_rows(largest_clique, members, masks, fixed):
    """The masks that are settled: the fixed ones. Without any, masks can be renamed, so that piece p of a largest clique needs none above p."""
    settled = [f"x_{v}_{fixed[v]} = 1" for v in members if v in fixed]
    return settled or [f"x_{v}_{m} = 0" for p, v in enumerate(largest_clique) for m in range(p + 1, masks)]


def component(conflicts, stitches, members, masks, fixed, with_cliques):
    inside = set(members)
    near, stitched = ([(u, v) for u in members for v in sorted(edges[u] & inside) if u < v] for edges in (conflicts, stitches))
    found = graph.cliques(conflicts, members)
    rows = [total(f"x_{v}_{m}" for m in range(masks)) + " = 1" for v in members]
    rows += [f"x_{u}_{m} + x_{v}_{m} - c_{u}_{v} <= 1" for u, v in near for m in range(masks)]
    rows += [f"x_{u}_{m} - x_{v}_{m} - s_{u}_{v} <= 0" for u, v in stitched for m in range(masks)]
    rows += mask_rows(max(found, key=len), members, masks, fixed)
    if with_cliques:
        rows += clique_rows(found, masks)
    cost = [f"{WEIGHT} c_{u}_{v}" for u, v in near] + [f"s_{u}_{v}" for u, v in stitched]
    names = [f"x_{v}_{m}" for v in members for m in range(masks)] + [f"c_{u}_{v}" for u, v in near] + [f"s_{u}_{v}" for u, v in stitched]
    return "\n".join(["Minimize", f" {total(cost)}", "Subject To", *(f" {row}" for row in rows), "Binaries", *(f" {name}" for name in names), "End", ""])
