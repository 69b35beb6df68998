import unittest

from support import DIGEST, MARK, RoomCase, bytes_of, finish, head, improve, part_of_search, small_search, snapshot, snapshot_each

from hammockdove import JournalDamaged, NotBegun
from hammockdove.journal import Finish, Head, Improve, Journal, Part, Snapshot, read
from hammockdove.progress import Tracker
from hammockdove.show import contents_of, lines_of


class JournalCase(RoomCase):
    def setUp(self):
        super().setUp()
        self.path = self.room / "journal"

    def refused(self, data):
        """The cause and the offset of the refusal of these bytes."""
        self.path.write_bytes(data)
        with self.assertRaises(JournalDamaged) as caught:
            read(self.path)
        return caught.exception.cause, caught.exception.offset


class JournalTests(JournalCase):
    def test_both_versions(self):
        for version, offsets, size in ((1, [0, 67, 129, 227, 277, 339], 390), (2, [0, 75, 137, 235, 285, 347], 398)):
            with self.subTest(version):
                data = bytes_of(small_search(version))
                self.assertEqual(len(data), size)
                self.path.write_bytes(data)
                found = list(Journal(self.path).advance())
                self.assertEqual([it.offset for it in found], offsets)
                self.assertEqual(found[0].record, Head(version, "knapsack", 0, b"3 10\n60 5\n50 4\n70 6\n"))
                self.assertEqual(found[1].record, Improve(110, (1, 1, 0)))
                self.assertEqual(found[2].record.children[0].decisions, (1,))
                self.assertEqual(found[5].record, Finish(2, ()))

    def test_first_bytes(self):
        self.assertTrue(bytes_of([head(1)]).startswith(bytes.fromhex("01 01 00 00 00 1d 00 00 00 01 01 00 00 00 14")))
        part = "01 01 00 00 00 4d 50 41 52 54 01 00 00 00 00 00 00 00 00 00 00 00 01 00 00 00 03" + DIGEST.hex() + "00 00 00 14"
        self.assertTrue(bytes_of([head(MARK)]).startswith(bytes.fromhex(part)))
        self.assertTrue(bytes_of([head(2)]).startswith(bytes.fromhex("01 01 00 00 00 25 00 00 00 02 01 00 00 00 00 00 00 00 00 00 00 00 14")))

    def test_snapshot(self):
        record = snapshot((110, [1, 1, 0]), 3, (1, 121, [1]), (2, 120, [0]))
        self.assertEqual(len(record[1]), 85)
        self.path.write_bytes(bytes_of([head(2, within=7), record]))
        found, entries = read(self.path)
        self.assertEqual(found.within, 7)
        self.assertEqual(entries[0].record, Snapshot(Improve(110, (1, 1, 0)), 3, ((1, 121, (1,)), (2, 120, (0,)))))
        self.assertEqual(self.refused(bytes_of([head(1), record])), ("malformed", 67))

    def test_part(self):
        self.path.write_bytes(bytes_of([head(MARK, within=7), snapshot(None, 3, (2, 120, [0]))]))
        found, entries = read(self.path)
        self.assertEqual(found, Head(2, "knapsack", 7, b"3 10\n60 5\n50 4\n70 6\n", Part(1, 3, DIGEST.hex())))
        self.assertEqual((str(found.part), [it.offset for it in entries]), ("1/3", [115]))
        self.assertEqual(entries[0].record, Snapshot(None, 3, ((2, 120, (0,)),)))

    def test_digest(self):
        self.path.write_bytes(bytes_of(small_search(2)[:3]))
        journal = Journal(self.path)
        self.assertEqual(journal.digest, "00" * 32)
        list(journal.advance())
        self.assertEqual(journal.digest, self.path.read_bytes()[-33:-1].hex())
        self.path.write_bytes(bytes_of(part_of_search(1)))
        self.assertEqual(read(self.path)[0].part, Part(1, 2, journal.digest))

    def test_not_begun(self):
        for data in (b"", b"\0", b"\1", b"\0rest", b"\3"):
            with self.subTest(data):
                self.path.write_bytes(data)
                self.assertRaises(NotBegun, read, self.path)

    def test_what_stands_after_a_closed_gate_means_nothing(self):
        for gate in (b"\0", b"\2", b"\xff"):
            self.path.write_bytes(bytes_of(small_search())[:-1] + gate + b"torn")
            self.assertEqual(len(read(self.path)[1]), 5)

    def test_growing(self):
        data, journal = bytes_of(small_search()), Journal(self.path)
        seen = []
        for end in range(0, len(data), 7):
            # As the writer does: the gate of a record that is not whole is closed.
            whole = max(at for at in (0, 67, 129, 227, 277, 339) if at <= end)
            self.path.write_bytes(data[:whole] + b"\0" + data[whole + 1 : end])
            seen += list(journal.advance())
        self.path.write_bytes(data)
        seen += list(journal.advance())
        self.assertEqual(len(seen), 6)
        self.assertEqual(list(journal.advance()), [])

    def test_damage_has_its_place(self):
        good = bytes_of(small_search())
        changed = bytearray(good)
        changed[80] ^= 1
        self.assertEqual(self.refused(bytes(changed)), ("damaged", 67))
        self.assertEqual(self.refused(good[:100]), ("damaged", 67))
        self.assertEqual(self.refused(good[:70]), ("damaged", 67))
        self.assertEqual(self.refused(good[:-1]), ("damaged", 339))

    def test_fields_that_are_none(self):
        for name, records, wanted in (
            ("version", [head(3)], ("version", 0)),
            ("part", [head(MARK, part=(3, 3, DIGEST))], ("malformed", 0)),
            ("digest of a part", [head(MARK, part=(0, 3, DIGEST[:4]), text=b"")], ("malformed", 0)),
            ("problem", [head(1, number=9)], ("malformed", 0)),
            ("distance", [head(2, within=-1)], ("malformed", 0)),
            ("second head", [head(1), head(1)], ("malformed", 67)),
            ("no head", [improve(1, 0)], ("malformed", 0)),
            ("kind", [head(1), (5, b"")], ("malformed", 67)),
            ("short", [head(1), (2, b"\0")], ("malformed", 67)),
            ("long", [head(1), (2, improve(1, 0)[1] + b"\0")], ("malformed", 67)),
            ("count", [head(1), (3, finish(0)[1][:8] + b"\xff\xff\xff\xff")], ("malformed", 67)),
            ("mark", [head(2), (4, b"\2" + snapshot(None, 1)[1][1:])], ("malformed", 75)),
        ):
            with self.subTest(name):
                self.assertEqual(self.refused(bytes_of(records)), wanted)


class ProgressTests(JournalCase):
    def after_each(self, records):
        self.path.write_bytes(bytes_of(records))
        tracker, found = Tracker(), []
        for entry in Journal(self.path).advance():
            tracker.take(entry.record)
            found.append(tracker.progress())
        return found

    def test_small_search(self):
        found = self.after_each(small_search())
        self.assertEqual([it.best for it in found], [None, 110, 110, 110, 120, 120])
        self.assertEqual([it.bound for it in found], [None, None, 121, 120, 120, 120])
        self.assertEqual([it.open for it in found], [1, 1, 2, 1, 0, 0])
        self.assertEqual([it.is_done for it in found], [False, False, False, False, True, True])
        self.assertEqual((found[2].gap, found[2].gap_percent), (11, 10.0))

    def test_distance_and_snapshot(self):
        records = small_search(2)[1:3]
        found = self.after_each([head(2, within=10), *records, snapshot((110, [1, 1, 0]), 3, (1, 121, [1])), finish(1)])
        self.assertEqual([it.bound for it in found], [None, None, 121, 121, 120])
        self.assertEqual([it.open for it in found], [1, 1, 1, 1, 0])
        self.assertEqual(found[-1].gap, 10)

    def test_part(self):
        found = self.after_each(part_of_search(1))
        self.assertEqual([it.open for it in found], [1, 1, 0, 0])
        self.assertEqual([it.bound for it in found], [None, 120, 120, 120])
        # Where nothing was dealt to a part, there is nothing to do in it.
        self.assertEqual([it.is_done for it in self.after_each([head(MARK), snapshot((110, [1, 1, 0]), 3)])], [False, True])

    def test_replaced(self):
        found = self.after_each([head(), finish(0, (None, 50, [1]), (None, 40, [0])), finish(1, (2, 45, [1, 0]))])
        self.assertEqual([(it.open, it.bound) for it in found], [(1, None), (2, 50), (1, 45)])


class ContentsTests(JournalCase):
    def said(self, data):
        self.path.write_bytes(data)
        return list(lines_of(contents_of(self.path)))

    def test_both_versions(self):
        for version, first, second, end in ((1, 67, 277, 389), (2, 75, 285, 397)):
            with self.subTest(version):
                self.assertEqual(
                    self.said(bytes_of(small_search(version))),
                    [
                        f"version {version}",
                        "problem knapsack",
                        "within 0",
                        "instance 20 bytes",
                        "records 5: 2 Improve, 3 Finish, 0 Snapshot",
                        f"solution 1: value 110, after 0 finished, at byte {first}",
                        f"solution 2: value 120, after 2 finished, at byte {second}",
                        "finished 3",
                        "open 0",
                        "best 120",
                        "bound 120",
                        "assignment 0 1 1",
                        f"end {end}",
                    ],
                )

    def test_part(self):
        said = self.said(bytes_of(part_of_search(0)))
        self.assertEqual(said[:5], ["version 2", "problem knapsack", "within 0", f"part 0/2 of journal {bytes_of(small_search(2)[:3])[-33:-1].hex()}", "instance 20 bytes"])
        self.assertEqual(said[-5:], ["open 1", "best 110", "bound 121", "assignment 1 1 0", "end 214"])

    def test_snapshot_after_each_finish(self):
        data = bytes_of(snapshot_each())
        self.assertEqual(len(data), 695)
        said = self.said(data)
        self.assertEqual(said[4], "records 8: 2 Improve, 3 Finish, 3 Snapshot")
        self.assertEqual(said[7:9], ["snapshot after 3 finished, at byte 619: 0 listed, next ticket 3", "finished 3, 0 of them since the last snapshot"])
        self.assertEqual(said[-2:], ["assignment 0 1 1", "end 694"])

    def test_what_is_open(self):
        said = self.said(bytes_of(small_search(2)[:3]))
        self.assertEqual(said[-6:], ["finished 1", "open 2", "best 110", "bound 121", "assignment 1 1 0", "end 235"])
        said = self.said(bytes_of([head(2, within=7)]))
        self.assertEqual((said[2], said[-4:]), ("within 7", ["open 1", "best unknown", "bound unknown", "end 75"]))
        # The solution of a snapshot counts where no later record has one.
        said = self.said(bytes_of([head(2), snapshot((110, [1, 1, 0]), 3, (1, 121, [1])), finish(1)]))
        self.assertEqual(said[-5:], ["open 0", "best 110", "bound 110", "assignment 1 1 0", "end 224"])

    def test_damage_after_the_head(self):
        data = bytes_of(small_search(2))
        self.path.write_bytes(data[:150])
        found = contents_of(self.path)
        self.assertEqual((found.refusal.cause, found.refusal.offset, len(found.solutions)), ("damaged", 137, 1))
        self.path.write_bytes(data[:50])
        self.assertRaises(JournalDamaged, contents_of, self.path)
        self.path.write_bytes(b"\0" + data[1:])
        self.assertRaises(NotBegun, contents_of, self.path)


if __name__ == "__main__":
    unittest.main()
