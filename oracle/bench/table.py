#!/usr/bin/env python3
"""oracle/bench/table.py [--round] TIMES..: the table of docs/BENCHMARKS.md from the lines of the benchmark, the least of several files.

A line has tabs: call, mesh, corners, our nanoseconds, the Rust's. Below the table stands how each goal came out, and where ours is the
slower one. With --round it is the table of faces of 300 corners, whose goals are those of what looks at faces.
"""
import sys

SIZES = (256, 1024, 4096)
ROUND_SIZES = (300, 1200, 3900)
SPREAD = "spread points"
# Ours/Rust: calls, the most that it may be, and the meshes, all where none are named. It is asked of every mesh at every size.
RATIOS = (
    ("the check of a mesh", ("mesh_number",), 1.0, ()),
    ("faces in any order", ("push",), 1.0, ()),
    ("compaction", ("remove_unused_attrs",), 1.0, ()),
    ("compaction in place", ("compact_in_place",), 1.0, ()),
    ("removal", ("remove_degenerate_faces",), 1.0, ()),
    ("verdict", ("shell_condition",), 1.0, ()),
    ("wires", ("hem_edges", "extract_boundaries", "house_wires"), 1.0, ()),
    ("panels", ("components",), 1.0, ()),
    ("smoothing", ("loop_subdivision",), 1.0, ()),
    ("merging on spread points", ("put_together_same_attrs",), 3.0, (SPREAD,)),
    ("merging by cell on spread points", ("put_together_by_cell",), 0.3, (SPREAD,)),
    ("scans", ("read_scan",), 1.0, ()),
)
GROWING = ("shell_condition", "hem_edges", "extract_boundaries", "house_wires", "components", "list_hems")
MOST_GROWTH = 24.0
PLAIN, BY_CELL = "put_together_same_attrs", "put_together_by_cell"
ORDINARY, IN_PLACE, MOST_IN_PLACE = "remove_unused_attrs", "compact_in_place", 1.5
# The list of hems does what these two do, and measures.
HEMS, OF_HEMS, MOST_OF_HEMS = "list_hems", ("house_wires", "components"), 1.5


def least(files):
    """For each call and mesh, in the order met, for each size and side: the least time."""
    times = {}
    for name in files:
        with open(name, encoding="utf-8") as lines:
            for line in lines:
                call, mesh, corners, ours, rust = line.rstrip("\n").split("\t")
                row = times.setdefault((call, mesh), {})
                for side, nanos in (("ours", ours), ("rust", rust)):
                    if nanos:
                        key = (side, int(corners))
                        row[key] = min(row.get(key, float("inf")), int(nanos))
    return times


def quotient(row, one, other):
    return row[one] / row[other] if one in row and other in row else None


def micros(nanos):
    if nanos is None:
        return ""
    return f"{nanos / 1000:.1f}" if nanos < 100_000 else f"{nanos / 1000:,.0f}"


def two_places(number):
    return "" if number is None else f"{number:.2f}"


def print_table(times, of_sizes=SIZES):
    sizes = " | ".join(f"{size:,}" for size in of_sizes)
    print(f"| Call | Mesh | Ours, µs: {sizes} | Rust, µs: {sizes} | Ours/Rust: {sizes} | Growth: ours | Rust |")
    print("|---" * 13 + "|")
    order = {call: place for place, call in enumerate(dict.fromkeys(call for call, _ in times))}
    for (call, mesh), row in sorted(times.items(), key=lambda item: order[item[0][0]]):
        cells = [f"`{call}`", mesh]
        cells += [micros(row.get((side, size))) for side in ("ours", "rust") for size in of_sizes]
        cells += [two_places(quotient(row, ("ours", size), ("rust", size))) for size in of_sizes]
        cells += [two_places(quotient(row, (side, of_sizes[-1]), (side, of_sizes[0]))) for side in ("ours", "rust")]
        print("| " + " | ".join(cells) + " |")


def print_ratios(times, of_sizes, ratios):
    """Each goal on every mesh at every size: where ours comes nearest to missing it or misses it most, and on which meshes it is met."""
    print("| Goal | The most | Where | Met on | Not met on |\n|---|---|---|---|---|")
    for name, calls, most, meshes in ratios:
        found = [
            (quotient(row, ("ours", size), ("rust", size)), f"`{call}`", mesh, f"{size:,}")
            for (call, mesh), row in times.items()
            for size in of_sizes
            if call in calls and (not meshes or mesh in meshes)
        ]
        print_goal(f"{name}: ours/Rust at most {most:.1f}", found, most)


def print_in_place(times, of_sizes):
    """Compaction in place beside ordinary compaction, on every mesh at every size, and how it grows."""
    rows = {mesh: (row, times.get((ORDINARY, mesh), {})) for (call, mesh), row in times.items() if call == IN_PLACE}
    sides = [(row.get(("ours", size)), other.get(("ours", size)), mesh, size) for mesh, (row, other) in rows.items() for size in of_sizes]
    found = [(ours / ordinary, f"`{IN_PLACE}`", mesh, f"{size:,}") for ours, ordinary, mesh, size in sides if ours and ordinary]
    print_goal(f"compaction in place/ordinary: at most {MOST_IN_PLACE}", found, MOST_IN_PLACE)
    grown = [(quotient(row, ("ours", of_sizes[-1]), ("ours", of_sizes[0])), f"`{IN_PLACE}`", mesh, "") for mesh, (row, _) in rows.items()]
    print_goal(f"compaction in place from {of_sizes[0]:,} to {of_sizes[-1]:,} corners: growth at most {MOST_GROWTH:.0f}", grown, MOST_GROWTH)


def print_hems(times, of_sizes):
    """The list of hems beside the wires and the panels that it is made of, on every mesh at every size."""
    found = []
    for (call, mesh), row in times.items():
        for size in of_sizes if call == HEMS else ():
            parts = [times.get((part, mesh), {}).get(("ours", size)) for part in OF_HEMS]
            if all(parts) and ("ours", size) in row:
                found.append((row["ours", size] / sum(parts), f"`{HEMS}`", mesh, f"{size:,}"))
    print_goal(f"list of hems/house wires and panels: at most {MOST_OF_HEMS}", found, MOST_OF_HEMS)


def print_goals(times):
    print("\n## How the goals came out\n")
    print_ratios(times, SIZES, RATIOS)
    print_in_place(times, SIZES)
    print_hems(times, SIZES)
    grown = [
        (quotient(row, ("ours", SIZES[-1]), ("ours", SIZES[0])), f"`{call}`", mesh, "")
        for (call, mesh), row in times.items()
        if call in GROWING
    ]
    print_goal(f"edges, wires, panels and hems from 256 to 4,096 corners: growth at most {MOST_GROWTH:.0f}", grown, MOST_GROWTH)
    print_engines(times)


def print_engines(times):
    """Merging by cell beside the plain engine. The lists have half as many points as there are corners."""
    full = SIZES[-1]

    def beside(mesh, sizes):
        rows = {call: times.get((call, mesh), {}).get for call in (PLAIN, BY_CELL)}
        pairs = [(rows[BY_CELL](("ours", size)), rows[PLAIN](("ours", size)), size) for size in sizes]
        return [(cell / plain, f"`{BY_CELL}`", mesh, f"{size:,}") for cell, plain, size in pairs if cell and plain]

    print_goal("merging by cell/plain on spread points, 2,048 in each list: at most 0.1", beside(SPREAD, (full,)), 0.1)
    print_goal("merging by cell/plain on one cell: at most 1.5", beside("one cell", SIZES), 1.5)
    grown = quotient(times.get((BY_CELL, SPREAD), {}), ("ours", full), ("ours", SIZES[0]))
    goal = f"merging by cell on spread points from 128 to 2,048 in each list: growth at most {MOST_GROWTH:.0f}"
    print_goal(goal, [(grown, f"`{BY_CELL}`", SPREAD, "")], MOST_GROWTH)


def print_goal(goal, found, most):
    """A mesh on which it is not met is named with its corners there."""
    found = [entry for entry in found if entry[0] is not None]
    if not found:
        print(f"| {goal} | | not measured | | |")
        return
    value, *where = max(found)
    missed = {}
    for ratio, _, mesh, size in found:
        sizes = missed.setdefault(mesh, [])
        if ratio > most and size not in sizes:
            sizes.append(size)
    met = ", ".join(mesh for mesh, sizes in missed.items() if not sizes)
    not_met = "; ".join(f"{mesh}: {', '.join(sizes)}".rstrip(": ") for mesh, sizes in missed.items() if sizes)
    print(f"| {goal} | {value:.2f} | {', '.join(part for part in where if part)} | {met or 'none'} | {not_met or 'none'} |")


def print_slower(times):
    full = SIZES[-1]
    print(f"\n## Where ours takes longer than the Rust at {full:,} corners\n")
    print("| Call | Mesh | Ours/Rust | Of ours the check of the mesh |\n|---|---|---|---|")
    for (call, mesh), row in times.items():
        ratio = quotient(row, ("ours", full), ("rust", full))
        if ratio and ratio > 1.0:
            check = times.get(("mesh_number", mesh), {}).get(("ours", full))
            share = f"{100 * check / row['ours', full]:.1f} %" if check else ""
            print(f"| `{call}` | {mesh} | {ratio:.2f} | {share} |")


if __name__ == "__main__":
    if sys.argv[1] == "--round":
        found = least(sys.argv[2:])
        print_table(found, ROUND_SIZES)
        print()
        print_ratios(found, ROUND_SIZES, [goal for goal in RATIOS if any((call, mesh) in found for call in goal[1] for _, mesh in found)])
        print_in_place(found, ROUND_SIZES)
        print_hems(found, ROUND_SIZES)
    else:
        found = least(sys.argv[1:])
        print_table(found)
        print_goals(found)
        print_slower(found)
