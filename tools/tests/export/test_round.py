"""Round trips: exported tables are read back, put into an image, and audited: each agent sees the rows of the
description."""

import os
import re
import subprocess

from netconf_tools.cli.export import FORMATS
from netconf_tools.export.description import description_of, name_of
from netconf_tools.export.image import image_of
from netconf_tools.export.reading import Found, read_streams
from netconf_tools.export.report import number_text
from netconf_tools.export.spans import Host
from netconf_tools.export.streams import masters_of
from netconf_tools.export.tables import Wanted
from netconf_tools.layout import Layout, layout_of
from netconf_tools.views import Board
from tests.case import Case
from tests.export.common import MADE, choice, registers_of, tables_for, wanted_for
from tests.export.made import Made, Rows, made, views_of
from tests.export.walkers import WALKERS

ALONE = ("vtd", "smmuv3-s2", "amd")
"""The formats that have writing without reading."""

VIEW = re.compile(r"view (\S+) for (read|write) rows (\d+)")


def flat(net: Made, layout: Layout) -> str:
    """Returns a description of the same agents as their hardware is: each behind one unit of its own with pages of 4
    KiB, before the host's addresses."""
    lines = [*[line for line in net.lines if not line.startswith(("agent ", "unit "))], *units_of(layout)]
    lines = [line for line in lines if ".between " not in line]
    lines += [f"hostbus is map [{', '.join(net.hosts)}];", "agent core is over hostbus;  //@ processor", "begin;", ""]
    return "\n".join(lines)


def units_of(layout: Layout) -> list[str]:
    """Returns the statements of the agents and their units."""
    lines = []
    for agent in layout.agents:
        if not agent.windows:
            continue
        entries, slot = [], 0
        for window in agent.windows:
            within = window.first & 0xfff
            entries.append(f"{window.first:#x}-{window.last:#x} to {agent.name}_u at {(slot << 12) + within:#x}")
            slot += (within + window.last - window.first >> 12) + 1
        entries += [f"{place.address:#x}-{place.address + place.last - place.first:#x} to {place.name} at "
                    f"{place.first:#x}"
                    for place in agent.places]
        lines.append(f"agent {agent.name} is map [{', '.join(entries)}];  //@ {agent.notes[0]}")
        lines.append(f"unit {agent.name}_u kind radix page 12 slots {slot} reach 40 to hostbus;")
    return lines


def audited(text: str, image: bytes) -> dict[tuple[str, bool], Rows]:
    """Returns the views that ``netconf audit`` prints."""
    done = subprocess.run([os.environ["NETCONF"], "audit"], input=text.encode() + b"\0" + image, capture_output=True,
                          check=True)
    found: dict[tuple[str, bool], Rows] = {}
    lines = iter(done.stdout.decode().splitlines())
    for line in lines:
        hit = VIEW.fullmatch(line)
        if hit:
            rows = [re.fullmatch(r"(\S+)-(\S+) (\S+)@(\S+)", next(lines)) for _ in range(int(hit[3]))]
            found[hit[1], hit[2] == "write"] = [(int(row[1], 16), int(row[2], 16), row[3], int(row[4], 16))
                                                for row in rows if row]
    return found


class TestRound(Case):
    """Exported tables as foreign ones."""

    def streams(self, name: str, wanted: Wanted) -> list[Found]:
        """Returns what tables say that are made and then found by the registers alone."""
        plan, registers = tables_for(wanted), registers_of(wanted.units[0])
        root, *config = registers.values()
        head = FORMATS[name].found_head(plan.memory, root, config[0] if config else None)
        return read_streams(plan.memory, head)

    def imported(self, name: str, text: str, streams: list[Found], rows: dict[tuple[str, bool], Rows],
                 agents: set[str]) -> None:
        """Puts tables into the image of a description, and compares what is audited of some agents."""
        board = Board("made.net", text.encode())
        layout = layout_of(board.text)
        masters, _ = masters_of(layout, FORMATS[name], [])
        image, losses, notes = image_of(layout, Host(board, "core"), masters, streams)
        self.assertEqual(([line for line in losses.lines if line.split(" ")[0] in agents], notes), ([], []))
        seen = audited(text, image)
        for agent in agents:
            for is_write in (False, True):
                self.assertEqual(seen[agent, is_write], rows[agent, is_write], f"{name}: {agent}")

    def round(self, net: Made, is_alone: bool) -> None:
        """Goes round with a made description, in the formats that can say its buffers."""
        text = net.text(is_alone)
        board = Board("made.net", text.encode())
        layout, rows = layout_of(board.text), views_of(text, list(net.agents))
        flattened = flat(net, layout)
        for name in WALKERS:
            if (name in ALONE) != is_alone:
                continue
            streams = self.streams(name, wanted_for(name, text, choice(), layout, board))
            self.imported(name, flattened, streams, rows, set(net.agents))
            self.imported(name, text, streams, rows, set(net.agents) - net.chained)

    def test_with_writing_alone(self) -> None:
        """Made nets in the formats that have it."""
        for number in range(MADE):
            self.round(made(number), True)

    def test_without(self) -> None:
        """Made nets in the formats that have no writing without reading."""
        for number in range(MADE):
            self.round(made(number), False)

    def test_description(self) -> None:
        """The description of what tables map sees by its agents what the made net sees, at the host's addresses."""
        for number in range(3):
            net = made(7000 + number)
            for name in WALKERS:
                text = net.text(name in ALONE)
                board = Board("made.net", text.encode())
                wanted = wanted_for(name, text, choice(), layout_of(board.text), board)
                streams = self.streams(name, wanted)[:20]
                form = FORMATS[name]
                notes = {found.number: number_text(form.note, found.number) for found in streams}
                described = description_of(name, form.note, streams, notes)
                agents = re.findall(r"^agent (\S+) is", described, re.M)
                seen = views_of(described + "begin;\n", agents)
                for found in streams:
                    title = name_of(form.note, found.number)
                    for is_write, more in ((False, ".read"), (True, ".write")):
                        rows = seen[title if title in agents else title + more, False]
                        self.assertEqual(pages_in(rows), pages_of_spans(found, is_write), f"{name}: {title}")


def pages_in(rows: Rows) -> dict[int, int]:
    """Returns the pages of rows, each with the host's address to which it comes."""
    return {page: at + page - lo for lo, hi, _, at in rows for page in range(lo, hi + 1, 0x1000)}


def pages_of_spans(found: Found, is_write: bool) -> dict[int, int]:
    """Returns the pages of spans that allow an access, each with the host's address to which it comes."""
    return {page: span.at(page) for span in found.spans if (span.may_write if is_write else span.may_read)
            for page in range(span.first, span.last + 1, 0x1000)}
