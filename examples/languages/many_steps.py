"""Twelve steps of a small simulation: in each the inlet's particles are joined with the resident ones, and the step is planned beside the
plan of the step before and carried out."""

import firrozka

# The tolerance is in tenths of a percent.
NODES, TOLERANCE, STEPS = 5, 100, 12


def flow(held):
    """A quarter of each count crosses into the next subdomain."""
    for counts in held:
        crossing = [count // 4 for count in counts]
        for n in range(NODES):
            counts[n] += crossing[n - 1] - crossing[n]


def inlet(step):
    """What the inlet brings, as a sheet: 300 particles of subdomain 0 to node 0 in steps 3 to 5, and else none."""
    return firrozka.to_bytes([NODES, TOLERANCE, 1, 0, 300] if 3 <= step <= 5 else [NODES, TOLERANCE, 0])


def sheet_of(held):
    """The counts as a sheet."""
    cells = [64 * k + n for k in range(NODES) for n in range(NODES) if held[k][n] > 0]
    counts = [held[cell // 64][cell % 64] for cell in cells]
    return firrozka.to_bytes([NODES, TOLERANCE, len(cells), *cells, *counts])


def counts_in(sheet):
    """The counts that a sheet gives. A cell that is absent counts as 0."""
    held = [[0] * NODES for _ in range(NODES)]
    for cell in firrozka.read_sheet(sheet).cells:
        held[cell.holder][cell.subdomain] = cell.count
    return held


held = [[1000 if n == k else 0 for n in range(NODES)] for k in range(NODES)]
old_plan = None
for number in range(1, STEPS + 1):
    flow(held)
    sheet = firrozka.join_sheets(sheet_of(held), inlet(number))
    step = firrozka.plan_step(sheet, old_plan)
    moves = firrozka.read_moves(step.moves)
    particles = sum(move.count for move in moves.moves)
    print(f"step {number} kind {step.kind} limit {step.limit} moves {moves.e} particles {particles}")
    # Here a simulation sends the particles; these are the counts thereafter.
    held = counts_in(firrozka.carry_out(sheet, step.moves))
    old_plan = step.plan
print("loads", *map(sum, held))
