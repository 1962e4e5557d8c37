"""What the harness is asked and answers: layouts, images and lists as lines of numbers."""

from typing import Any

from netconf_tools.layout import Layout, Viewer

Words = tuple[Any, ...]
"""The words of a line, numbers as numbers."""

KIND = {"pages": 0, "remap": 1, "vectors": 2, "radix": 3}


def view_numbers(view: Viewer) -> list[int]:
    """An agent or a port as numbers."""
    numbers = [view.node, len(view.windows), len(view.places)]
    for window in view.windows:
        numbers += [window.first, window.last, window.input, window.unit]
    for place in view.places:
        numbers += [place.first, place.last, place.address, place.node]
    return numbers


def layout_request(layout: Layout) -> str:
    """A layout as a request."""
    numbers = [len(layout.units), len(layout.agents)]
    for unit in layout.units:
        numbers += [unit.node, KIND[unit.kind], unit.page, unit.slots, unit.reach, len(unit.ports)]
        for port in unit.ports:
            numbers += view_numbers(port)
    for agent in layout.agents:
        numbers += view_numbers(agent)
    return f"layout {' '.join(map(str, numbers))}\n"


def image_request(which: int, data: bytes) -> str:
    """An image as a request."""
    return f"image {which} {len(data)} {data.hex(' ')}\n"


def echo(layout: Layout) -> str:
    """A layout as the program `echo` prints it from a header in C."""
    lines = [f"{len(layout.units)} {len(layout.agents)}"]
    for unit in layout.units:
        lines.append(f"{unit.name}|{', '.join(unit.notes)} {unit.node} {KIND[unit.kind]} {unit.page} {unit.slots} "
                     f"{unit.reach} {len(unit.ports)}")
        for port in unit.ports:
            lines += echo_view(port)
    for agent in layout.agents:
        lines += echo_view(agent)
    return "".join(line + "\n" for line in lines)


def echo_view(view: Viewer) -> list[str]:
    """An agent or a port as lines."""
    numbers = view_numbers(view)
    lines = [f"{view.name}|{', '.join(view.notes)} {' '.join(map(str, numbers[:3]))}"]
    return lines + [" ".join(map(str, numbers[at:at + 4])) for at in range(3, len(numbers), 4)]


class Answers:
    """The lines that a harness printed, taken one after the other."""

    def __init__(self, output: str) -> None:
        self.lines = output.splitlines()
        self.at = 0

    def line(self) -> str:
        """The next line."""
        self.at += 1
        return self.lines[self.at - 1]

    def words(self) -> Words:
        """The words of the next line, numbers as numbers."""
        return tuple(int(word) if word.isdigit() else word for word in self.line().split())

    def up_to_end(self) -> tuple[list[Words], Words]:
        """The lines up to the one that says `end`, each as its words, and the words of that one."""
        found: list[Words] = []
        while True:
            words = self.words()
            if words[0] == "end":
                return found, words[1:]
            found.append(words)
