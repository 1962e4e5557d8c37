# SPDX-License-Identifier: Apache-2.0
"""Tests of the module netconf over the shared object: what its calls return and raise.

usage: PYTHONPATH=FOLDER python3 -P test_netconf.py, where FOLDER has netconf.py and libnetconf.so"""

import threading
import unittest

import netconf
from netconf import Access, Error, Event, Kind, Piece, Place, Rights, Row, Session, Status

DESCRIPTION = """dram is accept [0x0-0x3fffffff];
unit iommu kind pages page 12 slots 4 reach 32 to dram;
agent card is map [0x0-0x3fff to iommu at 0x0];
"""
LARGE = """dram is accept [0x0-0xffffffff];
unit iommu kind pages page 12 slots 1024 reach 40 to dram;
agent card is map [0x0-0x3fffff to iommu at 0x0];
"""


class TestSession(unittest.TestCase):
    """A session of a card behind a unit."""

    def setUp(self) -> None:
        self.session = Session(DESCRIPTION)
        self.addCleanup(self.session.close)
        self.card, self.dram = self.session.node("card"), self.session.node("dram")

    def fails(self, status: Status, call: str, *words: object) -> None:
        """A call that is not done, for this reason."""
        with self.assertRaises(Error) as caught:
            getattr(self.session, call)(*words)
        self.assertEqual(caught.exception.status, status)

    def test_events(self) -> None:
        """The events of opening, of grants and of revokes, in order."""
        unit = self.session.node("iommu")
        self.assertEqual(self.session.pending(), [Event(Kind.MAKE, unit, 4, 0)])
        self.session.settle()
        self.assertEqual(self.session.grant(1, self.card, self.dram, 0x9000, 0x2000), 0)
        self.assertEqual(self.session.pending(), [Event(Kind.WRITE_WORD, unit, 0, 0x901),
                                                  Event(Kind.WRITE_WORD, unit, 1, 0xa01)])
        self.session.revoke(1)
        self.assertEqual(self.session.grant(2, self.card, self.dram, 0x4000, 0x1000, Rights.READ, 0x3000), 0x3000)
        kinds = [Kind.WRITE_WORD] * 4 + [Kind.FENCE, Kind.WRITE_WORD]
        self.assertEqual([event.kind for event in self.session.pending()], kinds)
        self.session.settle()
        self.assertEqual(self.session.pending(), [])

    def test_many_events(self) -> None:
        """More events than are read at once."""
        with Session(LARGE) as session:
            session.settle()
            session.grant(1, session.node("card"), session.node("dram"), 0, 0x96000)
            events = session.pending()
            self.assertEqual([event.word for event in events], list(range(150)))
            self.assertEqual([event.value >> 8 for event in events], list(range(150)))

    def test_names(self) -> None:
        """Names and numbers of nodes."""
        self.assertEqual([self.session.name(number) for number in range(3)], ["dram", "iommu", "card"])
        self.fails(Status.NO_NODE, "name", 3)
        self.fails(Status.NO_NODE, "node", "cards")

    def test_refusals(self) -> None:
        """The refusals of a grant and of a revoke."""
        self.session.grant(1, self.card, self.dram, 0, 0x1000)
        self.fails(Status.ID_USED, "grant", 1, self.card, self.dram, 0, 0x1000)
        self.fails(Status.NO_AGENT, "grant", 2, self.dram, self.dram, 0, 0x1000)
        self.fails(Status.NO_TARGET, "grant", 2, self.card, 9, 0, 0x1000)
        self.fails(Status.NOT_ACCEPTED, "grant", 2, self.card, self.dram, 0x3ffff000, 0x2000)
        self.fails(Status.NO_PLACEMENT, "grant", 2, self.card, self.dram, 0x100, 0x100)
        self.fails(Status.BAD_ARGUMENT, "grant", 2, self.card, self.dram, 0, 0x1000, Rights(0))
        self.fails(Status.NO_GRANT, "revoke", 2)
        for words in ((1 << 32, 0, 0, 0, 1), (-1, 0, 0, 0, 1), (2, 1 << 16, 0, 0, 1), (2, 0, 0, 1 << 64, 1)):
            with self.assertRaises(ValueError):
                self.session.grant(*words)

    def test_told(self) -> None:
        """What is told of the live grants: where addresses lead, rows, and the image."""
        self.session.grant(1, self.card, self.dram, 0x9000, 0x2000, Rights.READ)
        self.assertEqual(self.session.resolve(self.card, 0x1004, Access.READ), [Place(self.dram, 0xa004)])
        self.assertEqual(self.session.resolve(self.card, 0x1004, Access.WRITE), [])
        self.assertEqual(self.session.view(self.card, Access.READ), [Row(0, 0x1fff, Place(self.dram, 0x9000))])
        self.assertEqual(self.session.image()[:8] + self.session.image()[16:24],
                         b"DNIM\2\0\1\0" + (0x921).to_bytes(8, "little"))
        self.fails(Status.NO_NODE, "view", 9, Access.READ)
        image = self.session.image()
        self.assertEqual(self.session.lookup(image, self.card, 0x1004, Access.READ), [Place(self.dram, 0xa004)])
        self.assertEqual(self.session.lookup(image, self.card, 0x1004, Access.WRITE), [])
        self.assertEqual(self.session.audit(image).splitlines()[1:3],
                         ["view card for read rows 1", "0x0-0x1fff dram@0x9000"])
        self.fails(Status.IMAGE_SHORT, "audit", image[:-1])
        self.fails(Status.IMAGE_TRAILING, "audit", image + b"0")
        self.fails(Status.NO_AGENT, "lookup", image, self.dram, 0, Access.READ)
        nodes = "".join(f"m[{number}] is accept [0x0-0xfff];" for number in range(6))
        entries = ", ".join(f"{16 * place:#x}-{16 * place + 7:#x} to m[0] at {8 * place:#x}" for place in range(40))
        with Session(f"{nodes} all is map [0x0-0xff to m[0] and m[1] and m[2] and m[3] and m[4] and m[5]];"
                     f"spread is map [{entries}];") as many:
            self.assertEqual(many.resolve(6, 7, Access.READ), [Place(number, 7) for number in range(6)])
            self.assertEqual([row.place.node for row in many.view(6, Access.WRITE)], list(range(6)))
            self.assertEqual([row.first for row in many.view(7, Access.READ)], list(range(0, 640, 16)))
            self.assertEqual(many.name(5), "m[5]")

    def test_route(self) -> None:
        """A line comes to a vector."""
        with Session("vectors cpu is accept [0x20-0x22]; unit irt kind vectors page 0 slots 4 reach 8 to cpu;"
                     "agent nic is map [0x0-0x3 to irt at 0x0];") as session:
            nic, cpu = session.node("nic"), session.node("cpu")
            self.assertEqual([session.route(line, nic, line, cpu) for line in range(3)], [0x20, 0x21, 0x22])
            self.assertEqual(session.resolve(nic, 1, Access.WRITE), [Place(cpu, 0x21)])

    def test_gather(self) -> None:
        """A buffer in pieces, each a grant of its own."""
        pieces = [Piece(1, self.dram, 0x5000, 0x1000), Piece(2, self.dram, 0x2000, 0x2000)]
        self.assertEqual(self.session.gather(self.card, pieces, Rights.WRITE), 0)
        self.assertEqual(self.session.view(self.card, Access.WRITE),
                         [Row(0, 0xfff, Place(self.dram, 0x5000)), Row(0x1000, 0x2fff, Place(self.dram, 0x2000))])
        self.fails(Status.ID_USED, "gather", self.card, pieces)
        self.session.revoke(2)
        self.fails(Status.BAD_ARGUMENT, "gather", self.card, [])
        self.fails(Status.BAD_ARGUMENT, "gather", self.card, pieces * 5)

    def test_run(self) -> None:
        """A text is answered as by the program, with an answer of any length."""
        self.assertEqual(netconf.run(DESCRIPTION + "begin; grant a card dram 0x9000 0x1000; resolve card 0x10;"),
                         (0, b"a at 0x0\ncard@0x10: dram@0x9010\n"))
        self.assertEqual(netconf.run("a is"), (4, b"refused: line 1 Statement\n"))
        status, answer = netconf.run(LARGE + "begin; dump;")
        self.assertEqual((status, len(answer.splitlines())), (0, 1 + (8 + 8 + 8 * 1024 + 31) // 32))

    def test_closed(self) -> None:
        """A closed session answers that it is closed, and may be closed again."""
        self.session.close()
        self.session.close()
        self.fails(Status.CLOSED, "revoke", 1)
        self.fails(Status.CLOSED, "pending")
        self.fails(Status.CLOSED, "settle")

    def test_text_is_refused(self) -> None:
        """The error has the line of the refusal, of any length."""
        name = "a" * 2000
        for text, line in (("a is", "refused: line 1 Statement"), (f"{name} is over {name};", f"Loop {name}")):
            with self.assertRaises(Error) as caught:
                Session(text)
            self.assertEqual(caught.exception.status, Status.REFUSED)
            self.assertIn(line, str(caught.exception))

    def test_threads(self) -> None:
        """Threads that grant in one session get places of their own."""
        with Session(LARGE) as session:
            card, dram = session.node("card"), session.node("dram")
            found: list[int] = []

            def grant(first: int) -> None:
                for number in range(first, first + 50):
                    found.append(session.grant(number, card, dram, number << 12, 0x1000))

            threads = [threading.Thread(target=grant, args=(first,)) for first in range(0, 400, 50)]
            for thread in threads:
                thread.start()
            for thread in threads:
                thread.join()
            self.assertEqual(sorted(found), [number << 12 for number in range(400)])

    def test_no_library(self) -> None:
        """A shared object that is not there."""
        with self.assertRaises(OSError):
            Session(DESCRIPTION, "/nonexistent/libnetconf.so")
        self.assertEqual(netconf.Status(0), Status.DONE)


if __name__ == "__main__":
    unittest.main()
