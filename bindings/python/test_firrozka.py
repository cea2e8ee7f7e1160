"""The module over the library: document 01's steps, refusals and parts, and document 02's joined sheets, traffic pages, archives, groups
and tallies."""

import array
import copy
import ctypes
import os
import pickle
import subprocess
import sys
import unittest
from concurrent.futures import ProcessPoolExecutor

import firrozka

SHEET = firrozka.to_bytes([3, 100, 3, 0, 65, 130, 90, 6, 4])
PLAN = firrozka.to_bytes([3, 2, 36, 0, 0, 0, 0, 27, 29])
MOVES = firrozka.to_bytes([3, 2, 1, 2, 27, 29])

# What the gas inlet injects at node 0, 17 of subdomain 0 and 3 of subdomain 1, and this and step D's sheet joined.
INLET = firrozka.to_bytes([3, 100, 2, 0, 1, 17, 3])
JOINED = firrozka.to_bytes([3, 100, 4, 0, 1, 65, 130, 107, 3, 6, 4])

# Nodes 0, 1 and 2 hold 34 and 3, 23, and 1,200 particles. Of subdomain 0 node 2 sends 1,000 to node 0 and 7 to node 1; of subdomain 1
# node 0 sends 3 to node 1, and node 1 sends 20 to node 2.
BUSY = firrozka.to_bytes([3, 100, 4, 0, 1, 65, 128, 34, 3, 23, 1200])
TRAFFIC = firrozka.to_bytes([3, 4, 128, 129, 4096 + 1, 4096 + 66, 1000, 7, 3, 20])
PAGE = """\
 0          3       1000
 1         20         10
 2       1007         20
==       1030       1030
"""


def archive(n, t, counts):
    """An archive by positions, which are written in base 4: each digit is twice a bit of the holder and a bit of the subdomain."""
    words = [n, t] + [0] * 4096
    for position, count in counts.items():
        words[2 + int(position, 4)] = count
    return firrozka.to_bytes(words)


# Of the busy sheet holder and subdomain are 0 0, 0 1, 1 1 and 2 0.
ARCHIVE = archive(3, 100, {"0": 34, "1": 3, "3": 23, "20": 1200})

# Nodes 0 and 2 help node 1, which is the root, and nodes 3 and 4 help node 0. Even is node 1's family, odd that of node 0.
TREE = firrozka.to_bytes([5, 2, 36, 1, 1, 1, 0, 0, 20, 0, 15, 12, 9])
GROUPS = firrozka.to_bytes([5, 1, 1, 1, 64, 64, 0, 64, 64, 0, 0])

# Steps H and I: the old plan by its helpands, and the sheets.
CHAIN = firrozka.to_bytes([3, 2, 36, 0, 0, 1, 0, 0, 0])
SHEET_H = firrozka.to_bytes([3, 100, 2, 0, 65, 28, 72])
SHEET_I = firrozka.to_bytes([3, 100, 2, 0, 65, 27, 73])


class Operations(unittest.TestCase):
    def test_step_d(self):
        self.assertEqual(firrozka.plan_step(SHEET), (2, 36, PLAN, MOVES))
        following = firrozka.carry_out(SHEET, MOVES)
        self.assertEqual(firrozka.to_words(following), [3, 100, 5, 0, 64, 65, 128, 130, 34, 27, 6, 29, 4])

    def test_records(self):
        self.assertEqual(firrozka.read_sheet(SHEET), (3, 100, 3, 100, 36, [(0, 0, 90), (1, 1, 6), (2, 2, 4)]))
        self.assertEqual(firrozka.read_plan(PLAN), (3, 2, 36, [0, 0, 0], [0, 27, 29]))
        self.assertEqual(firrozka.read_moves(MOVES), (3, 2, [(0, 0, 1, 27), (0, 0, 2, 29)]))

    def test_join_sheets(self):
        self.assertEqual(firrozka.join_sheets(SHEET, INLET), JOINED)
        self.assertEqual(firrozka.join_sheets(INLET, SHEET), JOINED)
        self.assertEqual(firrozka.join_sheets(SHEET, firrozka.to_bytes([3, 100, 0])), SHEET)

    def assert_unwritten(self, number, name, *records, length):
        buffer = ctypes.create_string_buffer(b"\xa5" * length, length)
        with self.assertRaises(firrozka.Refused) as caught:
            firrozka._call(name, *records, buffer)
        self.assertEqual(caught.exception.number, number)
        self.assertEqual(buffer.raw, b"\xa5" * length)

    def assert_not_joined(self, number, second, length):
        self.assert_unwritten(number, "join_sheets", SHEET, second, length=length)

    def test_sheets_that_are_not_joined(self):
        other_nodes, other_tolerance = firrozka.to_bytes([2, 100, 0]), firrozka.to_bytes([3, 35, 0])
        too_many = firrozka.to_bytes([3, 100, 1, 0, 999_999_901])
        self.assert_not_joined(5, INLET[:-1], firrozka.SHEET_BYTES)
        self.assert_not_joined(51, other_nodes, firrozka.SHEET_BYTES)
        self.assert_not_joined(51, other_tolerance, firrozka.SHEET_BYTES)
        self.assert_not_joined(7, too_many, firrozka.SHEET_BYTES)
        self.assert_not_joined(52, INLET, len(JOINED) - 1)
        with self.assertRaises(firrozka.Refused) as caught:
            firrozka.join_sheets(SHEET, other_tolerance)
        self.assertEqual(str(caught.exception), "refused 51: join sheets: the N or the t of the two sheets differ")

    def test_traffic_page(self):
        self.assertEqual(firrozka.traffic_page(BUSY, TRAFFIC), PAGE)
        buffer = ctypes.create_string_buffer(b"\xa5" * firrozka.PAGE_BYTES, firrozka.PAGE_BYTES)
        self.assertEqual(firrozka._call("traffic_page", BUSY, TRAFFIC, buffer).bytes, 100)
        self.assertEqual(buffer.raw, PAGE.encode() + b"\xa5" * (firrozka.PAGE_BYTES - 100))

    def test_the_longest_traffic_page(self):
        # Node 0 sends all that there can be to node 63.
        sheet = firrozka.to_bytes([64, 100, 1, 0, 1_000_000_000])
        page = firrozka.traffic_page(sheet, firrozka.to_bytes([64, 1, 63, 1_000_000_000]))
        self.assertEqual(len(page), firrozka.PAGE_BYTES)
        lines = page.splitlines()
        self.assertEqual(lines[0], " 0 1000000000          0")
        self.assertEqual((lines[9], lines[10]), (" 9          0          0", "10          0          0"))
        self.assertEqual(lines[63:], ["63          0 1000000000", "== 1000000000 1000000000"])

    def test_no_traffic_page(self):
        # In the order of the checks; the buffer is a byte too short throughout.
        cases = (
            (5, BUSY[:-1], b""),
            (31, BUSY, b""),
            (35, BUSY, firrozka.to_bytes([3, 1, 0, 1])),
            (41, BUSY, firrozka.to_bytes([2, 0])),
            (42, BUSY, firrozka.to_bytes([3, 1, 4096 + 66, 24])),
            (53, BUSY, TRAFFIC),
        )
        for number, sheet, moves in cases:
            self.assert_unwritten(number, "traffic_page", sheet, moves, length=len(PAGE) - 1)
        self.assertEqual(str(firrozka.Refused(53)), "refused 53: traffic page: the buffer is under 25 × (N+1) bytes")

    def test_archives(self):
        self.assertEqual(len(ARCHIVE), firrozka.ARCHIVE_BYTES)
        self.assertEqual(firrozka.write_archive(BUSY), ARCHIVE)
        self.assertEqual(firrozka.read_archive(ARCHIVE), BUSY)
        # The bytes behind what is written stay as they were.
        buffer = ctypes.create_string_buffer(b"\xa5" * 16400, 16400)
        self.assertEqual(firrozka._call("write_archive", BUSY, buffer).bytes, 16392)
        self.assertEqual(buffer.raw, ARCHIVE + b"\xa5" * 8)
        buffer = ctypes.create_string_buffer(b"\xa5" * 50, 50)
        self.assertEqual(firrozka._call("read_archive", ARCHIVE, buffer).bytes, 44)
        self.assertEqual(buffer.raw, BUSY + b"\xa5" * 6)

    def test_the_order_of_an_archive(self):
        # Holder 37 is 100101 in binary and subdomain 22 is 010110, so the digits of the position are 2 1 0 3 1 2; 63 is all ones.
        cells = [0, 63, 37 * 64 + 22, 63 * 64, 63 * 64 + 63]
        sheet = firrozka.to_bytes([64, 1, 5, *cells, 7, 8, 9, 10, 999_999_966])
        counts = {"0": 7, "111111": 8, "210312": 9, "222222": 10, "333333": 999_999_966}
        self.assertEqual(firrozka.write_archive(sheet), archive(64, 1, counts))
        self.assertEqual(firrozka.read_archive(archive(64, 1, counts)), sheet)

    def test_the_longest_sheet_goes_to_the_archive_and_back(self):
        sheet = firrozka.to_bytes([64, 999, 4096, *range(4096), *range(1, 4097)])
        self.assertEqual(len(sheet), firrozka.SHEET_BYTES)
        written = firrozka.write_archive(sheet)
        # Cell 64 * holder + subdomain has the count 1 above it.
        self.assertEqual(firrozka.to_words(written)[:10], [64, 999, 1, 2, 65, 66, 3, 4, 67, 68])
        self.assertEqual(firrozka.read_archive(written), sheet)

    def test_no_archive(self):
        # In the order of the checks; the buffer is a byte too short throughout.
        cases = (
            (1, BUSY[:11]),
            (2, firrozka.to_bytes([65, 100, 0])),
            (3, firrozka.to_bytes([3, 1000, 0])),
            (4, firrozka.to_bytes([3, 100, 10])),
            (5, BUSY[:-1]),
            (6, firrozka.to_bytes([3, 100, 1, 3, 1])),
            (7, firrozka.to_bytes([3, 100, 1, 0, 0])),
            (56, BUSY),
        )
        for number, sheet in cases:
            self.assert_unwritten(number, "write_archive", sheet, length=firrozka.ARCHIVE_BYTES - 1)

    def test_archives_that_are_not_read(self):
        # In the order of the checks; the buffer is a byte too short throughout, and a count is wrong up to 3.
        cases = (
            (54, archive(0, 0, {"3": 2**32 - 1})[:-1]),
            (54, archive(0, 0, {"3": 2**32 - 1}) + b"\0"),
            (2, archive(0, 0, {"3": 2**32 - 1})),
            (2, archive(65, 0, {"3": 2**32 - 1})),
            (3, archive(3, 0, {"3": 2**32 - 1})),
            (3, archive(3, 1000, {"3": 2**32 - 1})),
            # Subdomain 3, and holder 3.
            (55, archive(3, 100, {"0": 34, "11": 1})),
            (55, archive(3, 100, {"0": 34, "22": 1})),
            # A particle too many, and a sum that would be 1 in 32 bits.
            (55, archive(3, 100, {"0": 1, "1": 1_000_000_000})),
            (55, archive(3, 100, {"0": 2, "1": 2**32 - 1})),
            (56, ARCHIVE),
        )
        for number, record in cases:
            self.assert_unwritten(number, "read_archive", record, length=len(BUSY) - 1)

    def assert_refused_archive(self, said, record):
        with self.assertRaises(firrozka.Refused) as caught:
            firrozka.read_archive(record)
        for refused in (caught.exception, copy.copy(caught.exception), pickle.loads(pickle.dumps(caught.exception))):
            self.assertEqual((str(refused), refused.subject), (said, "archive"))

    def test_an_archive_is_refused_as_one(self):
        self.assert_refused_archive("refused 54: archive: the length is not 16,392 bytes", BUSY)
        self.assert_refused_archive("refused 2: archive: N is not 1 to 64", archive(65, 100, {}))
        self.assert_refused_archive("refused 3: archive: t is not 1 to 999", archive(3, 1000, {}))
        count = "refused 55: archive: a count is above 0 at a node not below N, or the sum is above 1,000,000,000"
        self.assert_refused_archive(count, archive(3, 100, {"11": 1}))
        buffer = "refused 56: write archive, read archive: the buffer is too short"
        self.assertEqual([str(firrozka.Refused(56)), str(firrozka.ArchiveRefused(56))], [buffer, buffer])
        # What is refused of a sheet is the sheet's.
        with self.assertRaises(firrozka.Refused) as caught:
            firrozka.write_archive(firrozka.to_bytes([65, 100, 0]))
        self.assertEqual(str(caught.exception), "refused 2: sheet: N is not 1 to 64")

    def test_groups(self):
        none = firrozka.NO_GROUP
        self.assertEqual(firrozka.groups(TREE), (GROUPS, [1, 1, 1, none, none], [0, none, none, 0, 0]))
        # The bytes behind what is written stay as they were.
        buffer = ctypes.create_string_buffer(b"\xa5" * 50, 50)
        self.assertEqual(firrozka._call("groups", TREE, buffer).bytes, 44)
        self.assertEqual(buffer.raw, GROUPS + b"\xa5" * 6)
        # Step D, in which nodes 1 and 2 help node 0.
        self.assertEqual(firrozka.groups(PLAN)[1:], ([0, 0, 0], [none] * 3))

    def test_no_group_in_kind_0(self):
        for n in (1, 3, 64):
            plan = firrozka.to_bytes([n, 0, 36, *range(n), *[0] * n])
            self.assertEqual(firrozka.groups(plan)[1:], ([64] * n, [64] * n))

    def test_the_groups_of_the_longest_chain(self):
        # Node k helps node k - 1, so that each node but the last owns a group.
        plan = firrozka.to_bytes([64, 2, 36, 0, *range(63), *[0] * 64])
        record, even, odd = firrozka.groups(plan)
        self.assertEqual(len(record), firrozka.GROUPS_BYTES)
        self.assertEqual(even, [owner for owner in range(0, 64, 2) for _ in range(2)])
        self.assertEqual(odd, [64] + [owner for owner in range(1, 63, 2) for _ in range(2)] + [64])

    def test_no_groups(self):
        # In the order of the checks; the buffer is a byte too short throughout.
        cases = (
            (11, TREE[:11]),
            (12, firrozka.to_bytes([65, 2, 36])),
            (13, firrozka.to_bytes([5, 3, 36])),
            (14, firrozka.to_bytes([5, 2, 1_999_000_001])),
            (15, TREE[:-1]),
            (16, firrozka.to_bytes([5, 2, 36, 1, 1, 1, 0, 5, 20, 0, 15, 12, 9])),
            # Nodes 3 and 4 help each other.
            (17, firrozka.to_bytes([5, 2, 36, 1, 1, 1, 4, 3, 20, 0, 15, 12, 9])),
            (18, firrozka.to_bytes([5, 2, 36, 1, 1, 1, 0, 0, 20, 0, 15, 12, 37])),
            (57, TREE),
        )
        for number, plan in cases:
            self.assert_unwritten(number, "groups", plan, length=len(GROUPS) - 1)
        self.assertEqual(str(firrozka.Refused(57)), "refused 57: groups: the buffer is under 4 × (1 + 2N) bytes")

    def assert_tally(self, tally, *, totals, leasts, holds):
        self.assertEqual((tally.n, tally.limit, tally.helpands), (3, 36, [0, 0, 1]))
        self.assertEqual((tally.total, tally.totals), (sum(totals), totals))
        self.assertEqual((tally.leasts, tally.holds), (leasts, holds))
        cells = [[tally.count(holder, subdomain) for holder in range(3)] for subdomain in range(3)]
        self.assertEqual([sum(held) for held in cells], totals)

    def assert_opened(self, tally):
        self.assert_tally(tally, totals=[28, 72, 0], leasts=[28, 36, 0], holds=True)

    def test_tally(self):
        self.assertEqual(ctypes.sizeof(firrozka._TallyWords), 17164)
        tally = firrozka.Tally(SHEET_H, CHAIN)
        self.assert_opened(tally)
        self.assertEqual((tally.count(0, 0), tally.count(1, 1), tally.count(0, 1)), (28, 72, 0))
        # A particle of subdomain 2 at node 0: node 2 spares one fewer, and node 1 keeps one more than the limit.
        self.assertIs(tally.add(0, 2, 1), False)
        self.assert_tally(tally, totals=[28, 72, 1], leasts=[28, 37, 1], holds=False)
        self.assertEqual((tally.count(0, 2), tally.count(2, 0)), (1, 0))
        self.assertIs(tally.remove(0, 2, 1), True)
        self.assert_opened(tally)
        # With 10 fewer of its own node 1 can spare 10, which node 0 need not keep; that they are held elsewhere plays no part.
        self.assertIs(tally.remove(1, 1, 10), True)
        self.assert_tally(tally, totals=[28, 62, 0], leasts=[18, 26, 0], holds=True)
        self.assertIs(tally.add(2, 1, 10), True)
        self.assert_opened(tally)
        self.assertEqual((tally.count(1, 1), tally.count(2, 1)), (62, 10))

    def test_a_tally_whose_tree_does_not_hold_is_opened(self):
        # Step I, with a kept plan whose limit is another.
        tally = firrozka.Tally(SHEET_I, firrozka.to_bytes([3, 1, 9, 0, 0, 1, 0, 0, 0]))
        self.assert_tally(tally, totals=[27, 73, 0], leasts=[27, 37, 0], holds=False)
        self.assertEqual(repr(tally), "<Tally n=3 limit=36 total=100 holds=False>")

    def assert_not_tallied(self, number, call, *arguments):
        with self.assertRaises(firrozka.Refused) as caught:
            call(*arguments)
        self.assertEqual(caught.exception.number, number)

    def test_a_call_that_is_refused_alters_no_tally(self):
        tally = firrozka.Tally(SHEET_H, CHAIN)
        most = 2**32 - 1
        # 58 comes before 60 and 59.
        for cell in ((3, 0, most), (0, most, 1), (0, 0, 0)):
            self.assert_not_tallied(58, tally.add, *cell)
            self.assert_not_tallied(58, tally.remove, *cell)
        # The subdomain has 72, the cell none.
        for cell in ((0, 0, 29), (0, 1, 1), (0, 0, most)):
            self.assert_not_tallied(59, tally.remove, *cell)
        # A particle too many, and a sum that would be 99 in 32 bits.
        for count in (999_999_901, most):
            self.assert_not_tallied(60, tally.add, 2, 2, count)
        self.assert_opened(tally)
        self.assertFalse(tally.add(1, 1, 1))
        self.assert_not_tallied(59, tally.remove, 2, 2, 1)
        self.assert_tally(tally, totals=[28, 73, 0], leasts=[28, 37, 0], holds=False)
        said = [str(firrozka.Refused(number)) for number in (58, 59, 60)]
        self.assertEqual(said[0], "refused 58: tally add, tally remove: a node is not below N, or the count is 0")
        self.assertEqual(said[1], "refused 59: tally remove: the cell has fewer than are removed")
        self.assertEqual(said[2], "refused 60: tally add: the total would be above 1,000,000,000")

    def test_no_tally(self):
        # In the order of the checks; the plan of one node is of kind 0, too.
        cases = (
            (5, SHEET_H[:-1], b""),
            (11, SHEET_H, b""),
            (15, SHEET_H, TREE[:-1]),
            (21, SHEET_H, TREE),
            (21, SHEET_H, firrozka.to_bytes([1, 0, 36, 0, 0])),
            (24, SHEET_H, firrozka.to_bytes([3, 0, 36, 0, 1, 2, 0, 0, 0])),
        )
        for number, sheet, plan in cases:
            self.assert_not_tallied(number, firrozka.Tally, sheet, plan)
            # What the library leaves of a tally that was open.
            tally = firrozka.Tally(SHEET_H, CHAIN)
            arguments = [*firrozka._slices(sheet, plan), ctypes.byref(tally._now)]
            self.assert_not_tallied(number, firrozka._ask, "open_tally", *arguments)
            self.assertEqual(bytes(tally._now), bytes(17164))
            self.assert_not_tallied(58, tally.add, 0, 0, 1)
            self.assert_not_tallied(58, tally.remove, 0, 0, 1)

    def test_a_copy_is_another_tally(self):
        tally = firrozka.Tally(SHEET_H, CHAIN)
        for other in (copy.copy(tally), copy.deepcopy(tally), pickle.loads(pickle.dumps(tally))):
            self.assert_opened(other)
            other.add(1, 1, 1)
            self.assert_tally(other, totals=[28, 73, 0], leasts=[28, 37, 0], holds=False)
            self.assert_opened(tally)

    def test_numbers_that_no_cell_has(self):
        tally = firrozka.Tally(SHEET_H, CHAIN)
        # The lowest 32 bits of the first are those of 1.
        for number in (2**32 + 1, -1):
            with self.assertRaises(ValueError) as caught:
                tally.add(0, 0, number)
            self.assertEqual(str(caught.exception), f"count: {number} is not 0 to 4,294,967,295")
        for holder, subdomain in ((3, 0), (0, 3), (-1, 0)):
            self.assertRaises(IndexError, tally.count, holder, subdomain)
        self.assertRaises(TypeError, tally.remove, 0, 0, 1.0)
        self.assert_opened(tally)

    def test_weigh(self):
        self.assertEqual(firrozka.weigh(SHEET_H, CHAIN), (True, [28, 36, 0]))
        self.assertEqual(firrozka.weigh(SHEET_I, CHAIN), (False, [27, 37, 0]))

    def test_tree_in_force(self):
        kept = firrozka.plan_step(SHEET_H, CHAIN).plan
        self.assertEqual(firrozka.tree_in_force(CHAIN, kept), [0, 0, 1])
        self.assertEqual(firrozka.tree_in_force(CHAIN, PLAN), [0, 0, 0])
        self.assertEqual(firrozka.tree_in_force(PLAN, kept), [])

    def test_tree_in_force_of_roots_and_without_an_old_plan(self):
        roots = firrozka.to_bytes([3, 0, 36, 0, 1, 2, 0, 0, 0])
        self.assertEqual(firrozka.tree_in_force(CHAIN, roots), [0, 1, 2])
        self.assertEqual(firrozka.tree_in_force(b"", roots), [])
        self.assertEqual(firrozka.tree_in_force(b"", PLAN), [])

    def test_version(self):
        self.assertEqual(firrozka.version(), firrozka.VERSION)

    def test_a_shared_object_that_lacks_a_function_is_no_library(self):
        folder = os.path.dirname(os.path.abspath(firrozka.__file__))
        environment = dict(os.environ, PYTHONPATH=folder, FIRROZKA_SO="libc.so.6")
        command = [sys.executable, "-c", "import firrozka"]
        said = subprocess.run(command, env=environment, stderr=subprocess.PIPE).stderr.decode()
        self.assertRegex(said, "ImportError: .*firrozka_version.*bindings/python/build")

    def test_refusals(self):
        with self.assertRaises(firrozka.Refused) as caught:
            firrozka.plan_step(SHEET[:-1])
        self.assertEqual(caught.exception.number, 5)
        self.assertEqual(str(caught.exception), "refused 5: sheet: the length is not 4 × (3 + 2E) bytes")
        with self.assertRaises(firrozka.Refused) as caught:
            firrozka.read_plan(b"")
        self.assertEqual(caught.exception.number, 11)
        self.assertEqual(caught.exception.subject, "plan")
        self.assertEqual(caught.exception.reason, "under 12 bytes")

    def assert_same_refusal(self, refused):
        self.assertIs(type(refused), firrozka.Refused)
        self.assertEqual((refused.number, refused.reason), (42, firrozka.REFUSALS[42][1]))
        self.assertEqual(str(refused), str(firrozka.Refused(42)))

    def test_refusals_are_copied_and_pickled(self):
        refused = firrozka.Refused(42)
        self.assert_same_refusal(copy.copy(refused))
        self.assert_same_refusal(copy.deepcopy(refused))
        for protocol in range(pickle.HIGHEST_PROTOCOL + 1):
            self.assert_same_refusal(pickle.loads(pickle.dumps(refused, protocol)))

    def test_a_refusal_leaves_a_process_pool_whole(self):
        too_many = firrozka.to_bytes([3, 1, 2 * 4096 + 2 * 64, 5])
        with ProcessPoolExecutor(1) as pool:
            self.assert_same_refusal(pool.submit(firrozka.carry_out, SHEET, too_many).exception())
            self.assertEqual(pool.submit(firrozka.carry_out, SHEET, MOVES).exception(), None)


# The same bytes in other objects.
FORMS = (
    bytes,
    bytearray,
    memoryview,
    lambda record: array.array("B", record),
    lambda record: array.array("I", record),
    lambda record: memoryview(record).cast("I"),
)


class Arguments(unittest.TestCase):
    def test_any_bytes_like_object_is_taken(self):
        kept = firrozka.plan_step(SHEET_H, CHAIN).plan
        for form in FORMS:
            self.assertEqual(firrozka.to_words(form(PLAN)), firrozka.to_words(PLAN))
            self.assertEqual(firrozka.read_sheet(form(SHEET)), firrozka.read_sheet(SHEET))
            self.assertEqual(firrozka.read_plan(form(PLAN)), firrozka.read_plan(PLAN))
            self.assertEqual(firrozka.read_moves(form(MOVES)), firrozka.read_moves(MOVES))
            self.assertEqual(firrozka.weigh(form(SHEET_H), form(CHAIN)), (True, [28, 36, 0]))
            self.assertEqual(firrozka.plan_step(form(SHEET_H), form(CHAIN)), firrozka.plan_step(SHEET_H, CHAIN))
            self.assertEqual(firrozka.carry_out(form(SHEET), form(MOVES)), firrozka.carry_out(SHEET, MOVES))
            self.assertEqual(firrozka.join_sheets(form(SHEET), form(INLET)), JOINED)
            self.assertEqual(firrozka.traffic_page(form(BUSY), form(TRAFFIC)), PAGE)
            self.assertEqual(firrozka.write_archive(form(BUSY)), ARCHIVE)
            self.assertEqual(firrozka.read_archive(form(ARCHIVE)), BUSY)
            self.assertEqual(firrozka.groups(form(TREE)).record, GROUPS)
            self.assertEqual(firrozka.Tally(form(SHEET_H), form(CHAIN)).leasts, [28, 36, 0])
            self.assertEqual(firrozka.tree_in_force(form(CHAIN), form(kept)), [0, 0, 1])

    def test_no_old_plan_is_none_or_empty(self):
        self.assertEqual(firrozka.plan_step(SHEET, None), firrozka.plan_step(SHEET))
        self.assertEqual(firrozka.plan_step(SHEET, b""), firrozka.plan_step(SHEET))

    def assert_named(self, name, given, call, *arguments):
        with self.assertRaises(TypeError) as caught:
            call(*arguments)
        self.assertEqual(str(caught.exception), f"{name}: a bytes-like object is needed, not {given}")

    def test_a_wrong_type_is_named(self):
        self.assert_named("record", "list", firrozka.to_words, [3, 100])
        self.assert_named("sheet", "str", firrozka.read_sheet, "3 100 0")
        self.assert_named("plan", "NoneType", firrozka.read_plan, None)
        self.assert_named("moves", "int", firrozka.read_moves, 3)
        self.assert_named("plan", "Plan", firrozka.weigh, SHEET, firrozka.read_plan(PLAN))
        self.assert_named("sheet", "NoneType", firrozka.plan_step, None, PLAN)
        self.assert_named("old_plan", "Step", firrozka.plan_step, SHEET, firrozka.plan_step(SHEET))
        self.assert_named("moves", "Moves", firrozka.carry_out, SHEET, firrozka.read_moves(MOVES))
        self.assert_named("first", "Sheet", firrozka.join_sheets, firrozka.read_sheet(SHEET), INLET)
        self.assert_named("second", "NoneType", firrozka.join_sheets, SHEET, None)
        self.assert_named("sheet", "Sheet", firrozka.traffic_page, firrozka.read_sheet(BUSY), TRAFFIC)
        self.assert_named("moves", "str", firrozka.traffic_page, BUSY, PAGE)
        self.assert_named("sheet", "Sheet", firrozka.write_archive, firrozka.read_sheet(BUSY))
        self.assert_named("archive", "NoneType", firrozka.read_archive, None)
        self.assert_named("plan", "Plan", firrozka.groups, firrozka.read_plan(TREE))
        self.assert_named("sheet", "Sheet", firrozka.Tally, firrozka.read_sheet(SHEET), PLAN)
        self.assert_named("plan", "NoneType", firrozka.Tally, SHEET, None)
        self.assert_named("old_plan", "NoneType", firrozka.tree_in_force, None, PLAN)
        self.assert_named("new_plan", "NoneType", firrozka.tree_in_force, PLAN, None)

    def test_bytes_with_gaps_are_no_record(self):
        with self.assertRaises(TypeError) as caught:
            firrozka.read_sheet(memoryview(SHEET)[::2])
        self.assertEqual(str(caught.exception), "sheet: the bytes of this memoryview do not lie side by side")


if __name__ == "__main__":
    unittest.main()
