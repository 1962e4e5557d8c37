"""Faults that are planted in an image, in the layout or in the loader, to see that the trial finds each."""

import copy
from collections.abc import Callable
from typing import NamedTuple

from netconf_tools.layout import Layout, Unit, Viewer
from netconf_tools.text import Trouble


class Plant(NamedTuple):
    """A fault in a few words, and what makes it: of images, of the layout, or a change of the driver's text, which
    stands there once and what takes its place."""
    what: str
    image: Callable[[bytes, Layout], bytes] | None = None
    layout: Callable[[Layout], None] | None = None
    driver: tuple[str, str] | None = None


def in_word(name: str, wanted: Callable[[int], int], change: Callable[[int], int]) -> Callable[[bytes, Layout], bytes]:
    """A change of the first word of a unit's slots that is as wanted, in each image."""
    def made(image: bytes, layout: Layout) -> bytes:
        unit = next(unit for unit in layout.units if unit.name == name)
        words = [unit.begins + 8 * word for word in range(unit.slots * unit.words)]
        for at in words:
            word = int.from_bytes(image[at:at + 8], "little")
            if wanted(word):
                return image[:at] + change(word).to_bytes(8, "little") + image[at + 8:]
        return image
    return made


def second_version(image: bytes, _: Layout) -> bytes:
    """The image with the number of the first version."""
    return image[:4] + b"\x01" + image[5:]


def with_unit(name: str, change: Callable[[Unit], None]) -> Callable[[Layout], None]:
    """A layout in which a unit is changed."""
    def made(layout: Layout) -> None:
        change(next(unit for unit in layout.units if unit.name == name))
    return made


def with_agent(name: str, change: Callable[[Viewer], None]) -> Callable[[Layout], None]:
    """A layout in which an agent is changed."""
    def made(layout: Layout) -> None:
        change(next(agent for agent in layout.agents if agent.name == name))
    return made


def small_pages(unit: Unit) -> None:
    """Pages of 4 KiB in place of larger ones: of each slot the first quarter at a quarter of its output."""
    unit.page = 12


def whole_slots(agent: Viewer) -> None:
    """A window that goes on to the end of its last slot."""
    agent.windows[-1].last |= 0x3fff


GATE, NO_WRITING = 1, 0x20

PLANTS = {
    "right": Plant("a bit of a record's rights", in_word("pages", lambda w: w & GATE and w & NO_WRITING,
                                                         lambda w: w ^ NO_WRITING)),
    "page": Plant("a bit of a record's page", in_word("pages", lambda w: w & GATE, lambda w: w ^ 0x100)),
    "gate": Plant("the gate of a record", in_word("pages", lambda w: w & GATE, lambda w: w ^ GATE)),
    "high": Plant("the bits of an output from 2^32 on are lost",
                  driver=("leaf = host | (page", "leaf = (host & 0xffffffff) | (page")),
    "port": Plant("the port of a record", in_word("shared", lambda w: w & GATE, lambda w: w ^ 2)),
    "vector": Plant("a vector", in_word("remapper", lambda w: w >= 0x40, lambda w: w ^ 1)),
    "version": Plant("the number of the version", second_version),
    "order": Plant("the half of a record that says that it counts is written first",
                   driver=("    write_half(handle, 1, high);\n    write_half(handle, 0, low);\n",
                           "    write_half(handle, 0, low);\n    write_half(handle, 1, high);\n")),
    "slot": Plant("large slots are taken for small ones", layout=with_unit("shared", small_pages)),
    "window": Plant("a window is taken to end with its last slot", layout=with_agent("nic", whole_slots)),
    "fence": Plant("nothing is invalidated at a fence",
                   driver=("    (void)context;\n    if (vtd_forget()) return 1;\n", "    (void)context;\n")),
}
"""The faults by their names."""


class Planted(NamedTuple):
    """What is built: images, a layout, the text of the driver, and whether one failed comparison is enough."""
    images: list[bytes]
    layout: Layout
    driver: str
    stops_at_first: bool


def planted(name: str | None, images: list[bytes], layout: Layout, driver: str) -> Planted:
    """The images, the layout and the text of the driver with a fault; all as they are where there is no name."""
    if name is None:
        return Planted(images, layout, driver, False)
    plant = PLANTS[name]
    images = [plant.image(image, layout) for image in images] if plant.image else images
    layout = copy.deepcopy(layout)
    if plant.layout:
        plant.layout(layout)
    if plant.driver:
        before, after = plant.driver
        if driver.count(before) != 1:
            raise Trouble(f"the driver has the text that the fault {name} changes {driver.count(before)} times")
        driver = driver.replace(before, after)
    return Planted(images, layout, driver, True)
