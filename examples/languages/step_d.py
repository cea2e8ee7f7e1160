"""Plans step D and prints it as the bench program does, and then its traffic page; writes its sheet to an archive and reads it back; prints
its plan's groups; tallies arrivals until the tree gives way."""

import firrozka

# 3 nodes, a tolerance of 100 tenths of a percent, 3 cells.
sheet = firrozka.to_bytes([3, 100, 3, 0, 65, 130, 90, 6, 4])
step = firrozka.plan_step(sheet)
plan = firrozka.read_plan(step.plan)

# Each node's amount of its own subdomain: Pn less the shares of its helpers. A root's share is 0.
own = [0] * plan.n
for cell in firrozka.read_sheet(sheet).cells:
    own[cell.subdomain] += cell.count
for helpand, share in zip(plan.helpands, plan.shares):
    own[helpand] -= share

print(f"kind {step.kind} limit {step.limit}")
for node in range(plan.n):
    print(f"node {node} helps {plan.helpands[node]} share {plan.shares[node]} own {own[node]}")
for move in firrozka.read_moves(step.moves).moves:
    print(f"move {move.subdomain} from {move.sender} to {move.receiver} count {move.count}")
print(firrozka.traffic_page(sheet, step.moves), end="")

archive = firrozka.write_archive(sheet)
same = firrozka.read_archive(archive) == sheet
print(f"archive {len(archive)} bytes, read back {'the same' if same else 'another'}")

groups = firrozka.groups(step.plan)
print("groups even", *groups.even, "odd", *groups.odd)

# Particles of subdomain 0 arrive at node 0 one by one.
tally = firrozka.Tally(sheet, step.plan)
count = 0
while tally.holds:
    tally.add(0, 0, 1)
    count += 1
print(f"tally: the tree gives way at {count} more of subdomain 0")
