"""tools/loader/netconf_image.h against the program: over the examples, over made nets, and over images with turned
bits.

The program reads no image of another, so that faults, and what is found in an image whose bits were turned, are
compared with the second reader beside this file. What is found in an image that the program made is compared with the
program's lookups."""

import concurrent.futures
import itertools
import pathlib
import random
from typing import Any

from netconf_tools.dump import image_in
from netconf_tools.dump import changes as listed_changes
from netconf_tools.layout import Layout, Viewer, layout_of
from netconf_tools.source import commands_of, declarations_of
from netconf_tools.text import Trouble, run
from tests.case import Case, descriptions, outcome
from tests.loader.builds import HERE, LANGUAGES, LOADER, PACKAGES, WARNINGS, all_builds, built, run_all
from tests.loader.nets import MADE, Net
from tests.loader.protocol import Answers, Words, image_request, layout_request
from tests.loader.second_reader import fault_of, look, names, record, record_of, words_of

TURNED = 8
"""How many images with turned bits are made of one."""

TOGETHER = 10
"""How many descriptions one run of the harness reads."""


Stand = tuple[bytes | None, set[Words]]
"""An image, or None for tables of 0, and its pages."""


class ImageCase:
    """A description with the images of its dumps, what the program says of lookups at each, and what the harness is
    asked."""

    def __init__(self, title: str, text: str, commands: list[str], lookups: list[tuple[str, int]],
                 seed: int | str) -> None:
        self.title, self.text = title, text
        script: list[str] = []
        for command in [*commands, "dump;"]:
            script.append(command)
            if command == "dump;":
                script += [f"lookup {agent} {address:#x} for {access};" for agent, address in lookups
                           for access in ("read", "write")]
        _, output = run("run", (text + "begin;\n" + "\n".join(script) + "\n").encode("latin-1"))
        if output.startswith("refused: "):
            raise Trouble(output.strip())
        self.layout = layout_of(text.encode("latin-1"))
        parts = output.split("dump bytes ")[1:]
        self.images = [image_in(output.encode("latin-1"), number + 1) for number in range(len(parts))]
        self.answers = [[line.split(": ", 1)[1] for line in part.splitlines() if "@" in line] for part in parts]
        places = {agent.name: number for number, agent in enumerate(self.layout.agents)}
        self.lookups = [(places[agent], address) for agent, address in lookups]
        self.granted = sum(" at 0x" in line or " vector 0x" in line for line in output.splitlines())
        self.chance = random.Random(seed)
        self.turned = [self.turn(self.chance.choice(self.images)) for _ in range(TURNED)]
        self.sizes = [self.sizes_of(agent) for agent in self.layout.agents]

    def turn(self, image: bytes) -> bytes:
        """An image of which bits were turned, that was cut or went on, or that is of the first version. Most bits that
        are turned say something: those of heads, and in words that are not 0 the port, the rights, the gate and the
        bits that must be 0."""
        data, how = bytearray(image), self.chance.random()
        if how < 0.1:
            return bytes(data[:self.chance.randrange(len(data))])
        if how < 0.15:
            return bytes(data) + b"\0" * self.chance.randrange(1, 9)
        if how < 0.35:
            heads = [*range(8)] if how < 0.25 else [unit.begins - 8 + byte for unit in self.layout.units
                                                    for byte in range(8)]
            data[self.chance.choice(heads or [0])] ^= 1 << self.chance.randrange(8)
            return bytes(data)
        if how > 0.8:
            data[4] = 1
        if how > 0.55:
            self.fill(data)
        starts = [at for unit in self.layout.units for at in range(unit.begins,
                                                                   unit.begins + 8 * unit.words * unit.slots, 8)]
        filled = [at for at in starts if any(data[at:at + 8])]
        for _ in range(self.chance.choice((1, 2, 8, 40)) if starts else 0):
            at = self.chance.choice(filled if filled and self.chance.random() < 0.8 else starts)
            if self.chance.random() < 0.6:
                data[at] ^= 1 << self.chance.choice((0, 1, 1, 2, 3, 4, 4, 5, 5, 6, 7))
            elif self.chance.random() < 0.5:
                data[at + 1] ^= 1 << self.chance.randrange(4)
            else:
                data[at + self.chance.randrange(8)] ^= 1 << self.chance.randrange(8)
        return bytes(data)

    def fill(self, data: bytearray) -> None:
        """Puts records at random into most slots: any port, rights and output that the unit can have, and some side by
        side."""
        chance, page = self.chance, 0
        for unit in self.layout.units:
            for at in range(unit.begins, unit.begins + 8 * unit.words * unit.slots, 8 * unit.words):
                if chance.random() < 0.15:
                    continue
                page = page + 1 if chance.random() < 0.6 else chance.randrange(1 << min(unit.reach - unit.page, 6))
                gate = 1 | chance.choice((0, 0, 0, 0x10, 0x20)) | (0 if unit.kind == "pages" or chance.random() < 0.5
                                                                   else chance.randrange(len(unit.ports)) << 1)
                words = [page, gate] if unit.words == 2 else [gate | page << 8]
                data[at:at + 8 * unit.words] = b"".join(word.to_bytes(8, "little") for word in words)

    def sizes_of(self, agent: Viewer) -> int:
        """The pages of a hardware that serves an agent: those of the unit that it comes to, or smaller ones, or some
        larger than its slots; and two sizes of larger ones."""
        page = self.layout.units[agent.windows[0].unit].page if agent.windows else 12
        smallest = max(page + self.chance.choice((-2, -1, 0, 0, 0, 1, 2)), 0)
        return 1 << smallest | 1 << smallest + 1 | 1 << smallest + self.chance.choice((2, 3))

    def requests(self) -> str:
        """What the harness is asked of this case."""
        sizes = " ".join(map(str, self.sizes))
        lines = [layout_request(self.layout), image_request(0, self.images[0]), image_request(1, self.images[-1])]
        lines += [*self.read(0), *self.read(1)]
        for pair in ("0 1", "1 0", "2 0"):
            lines += [f"change {pair} 0\n", f"words {pair} 0\n", f"changepages {pair} 0 {sizes}\n"]
        lines += ["change 0 1 2\n", "words 0 1 2\n", f"changepages 0 1 2 {sizes}\n"]
        for data in self.turned:
            lines.append(image_request(0, data))
            if fault_of(self.layout, data)[0] == "fine":
                lines += [*self.read(0), "change 0 1 0\n", "words 0 1 0\n", f"changepages 0 1 0 {sizes}\n"]
        return "".join(lines)

    def read(self, which: int) -> list[str]:
        """What is asked of one image."""
        lines = [f"slots {which}\n"]
        lines += [f"lookup {which} {agent} {address} {access}\n" for agent, address in self.lookups
                  for access in (0, 1)]
        return lines + [f"pages {which} {number} {self.sizes[number]}\n" for number in range(len(self.layout.agents))]


def slots_of(layout: Layout, data: bytes) -> list[Words]:
    """The records of an image as the harness prints them."""
    found: list[Words] = []
    for place, unit in enumerate(layout.units):
        for slot in range(unit.slots):
            one = record(layout, data, place, slot)
            if one:
                found.append((place, slot, *one))
    return found


def taken(words: Words) -> Any:
    """The answer to a lookup as the second reader gives it."""
    return words if words[0] == "out" else words[0]


def is_even(case: ImageCase, data: bytes, page: Words, smallest: int) -> bool:
    """Whether the first page of those that are said to be uneven could be said all the same: whether all its addresses
    come out side by side with the same rights, at a page. Large pages are not looked at address by address."""
    _, agent, first, *_ = page
    if smallest > 8:
        return False
    for is_write in (False, True):
        found = [look(case.layout, data, agent, address, is_write) for address in range(first, first + (1 << smallest))]
        if found[0][0] != "out":
            if any(one[0] == "out" for one in found):
                return False
        elif found != [(*found[0][:3], found[0][3] + n) for n in range(len(found))] or found[0][3] % (1 << smallest):
            return False
    return True


def tables_of(layout: Layout, data: bytes) -> list[list[int]]:
    """The words of all units, those of an image of the first version as tables of the second have them."""
    tables: list[list[int]] = []
    for place, unit in enumerate(layout.units):
        count = words_of(unit)
        words = [int.from_bytes(data[at:at + 8], "little") for at in range(unit.begins,
                                                                           unit.begins + 8 * count * unit.slots, 8)]
        for slot in range(unit.slots):
            mine = words[slot * count:(slot + 1) * count]
            if data[4] == 1 and record_of(unit, mine, 2) and not record_of(unit, mine, 1):
                words[slot * count:(slot + 1) * count] = [0] * count
        tables.append(words)
    return tables


def slotted(layout: Layout, tables: list[list[int]]) -> list[list[int]]:
    """The words of each slot of all units."""
    return [words[at:at + words_of(unit)] for unit, words in zip(layout.units, tables)
            for at in range(0, len(words), words_of(unit))]


def example_case(path: pathlib.Path) -> ImageCase:
    """An example as a case: its own commands, with a dump before the first and behind each that changes tables."""
    text = path.read_text("latin-1")
    layout = layout_of(text.encode("latin-1"))
    commands = [str(command) for command in commands_of(text) if command.word in ("grant", "route", "revoke")]
    middle = len(commands) // 2
    chance = random.Random(path.name)
    lookups: list[tuple[str, int]] = []
    for agent in layout.agents:
        for block in [(window.first, window.last) for window in agent.windows] + [(p.address,
                                                                                   p.address + p.last - p.first)
                                                                                  for p in agent.places]:
            lookups += [(agent.name, address) for address in (block[0], block[1], block[1] + 1, chance.randint(*block),
                                                              chance.randint(*block))]
    return ImageCase(path.name, declarations_of(text), [*commands[:middle], "dump;", *commands[middle:]], lookups,
                     path.name)


def made_case(number: int) -> ImageCase | None:
    """A made description as a case; nothing where the program refuses it."""
    net = Net(number)
    ids: list[str] = []
    commands = [*net.changes(ids, 40), "dump;", *net.changes(ids, 40)]
    lookups = [(agent, address) for agent, entries in net.agents for address in net.addresses(entries)]
    try:
        return ImageCase(f"made net {number}", net.text(), commands, lookups, number)
    except Trouble as trouble:
        if not str(trouble).startswith("refused: "):
            raise
        return None


class TestHeader(Case):
    """The header in C, as each compiler builds it, beside the second reader and the program."""

    def check_image(self, case: ImageCase, data: bytes, answers: Answers,
                    what: str) -> tuple[list[tuple[int, int, Any]], set[Words]]:
        """What was read in an image: its records, its lookups and its pages; returns the answers to the lookups, and
        the pages."""
        layout = case.layout
        records, _ = answers.up_to_end()
        self.assertEqual(records, slots_of(layout, data), f"{what}: its records")
        asked = [(agent, address, is_write) for agent, address in case.lookups for is_write in (False, True)]
        seen = [taken(answers.words()) for _ in asked]
        due = {question: look(layout, data, *question) for question in asked}
        wrong = [(question, answer, due[question]) for question, answer in zip(asked, seen) if answer != due[question]]
        self.assertTrue(not wrong, f"{what}: its lookups: {wrong[:10]}")
        pages = [answers.up_to_end()[0] for _ in layout.agents]
        for number, found in enumerate(pages):
            self.check_pages(case, data, number, found, due, what)
        return [(agent, address, answer) for (agent, address, _), answer in zip(asked, seen)], {page for found in pages
                                                                                                for page in found}

    def check_made_image(self, case: ImageCase, which: int, answers: Answers) -> set[Words]:
        """What was read in an image that the program made: its lookups are those of the program too. Returns its
        pages."""
        what = f"loader: {case.title}, image {which}"
        seen, pages = self.check_image(case, case.images[-1 if which else 0], answers, what)
        shown = [names(case.layout, agent, address, answer) for agent, address, answer in seen]
        self.assertEqual(shown, case.answers[-1 if which else 0], f"{what}: its lookups are those of the program")
        return pages

    def check_pages(self, case: ImageCase, data: bytes, agent: int, pages: list[Words],
                    due_at: dict[tuple[int, int, bool], Any], what: str) -> None:
        """The pages of an agent: each says what lookups say at its ends and within, and what is in none comes out of no
        unit."""
        wrong: list[str] = []
        at = 0
        smallest = (case.sizes[agent] & -case.sizes[agent]).bit_length() - 1
        for word, number, first, last, size, unit, port, output, may_read, may_write in pages:
            if number != agent or first < at or first % (1 << smallest):
                wrong.append(f"page at {first:#x}")
            at = last + 1
            if word == "uneven":
                continue
            is_whole = last - first + 1 == 1 << size and not first % (1 << size) and not output % (1 << size)
            if not is_whole or not case.sizes[agent] >> size & 1:
                wrong.append(f"size of the page at {first:#x}")
            for address in {first, last, case.chance.randint(first, last)}:
                due = [("out", unit, port, output + address - first) if right else "nothing"
                       for right in (may_read, may_write)]
                if [look(case.layout, data, agent, address, is_write) for is_write in (False, True)] != due:
                    wrong.append(f"{address:#x}")
        for (number, address, _), answer in due_at.items():
            if number == agent and answer[0] == "out" and not any(page[2] <= address <= page[3] for page in pages):
                wrong.append(f"{address:#x} is in no page")
        wrong += [f"{page[2]:#x} is even" for page in pages if page[0] == "uneven"
                  and is_even(case, data, page, smallest)]
        self.assertTrue(not wrong, f"{what}: the pages of agent {agent}: {wrong[:10]}")

    def check_events(self, before: dict[Words, Words], after: dict[Words, Words], events: list[Words],
                     what: str) -> None:
        """Events on tables of records by slots: no record is put over another, a fence stands between clears and puts,
        what stays is not touched, and what is left is the next image's."""
        wrong: list[Words] = []
        now, at, cleared, fences = dict(before), 0, 0, 0
        for event in events:
            at += 1
            if event[0] == "clear":
                key = event[1:]
                if key not in now or fences or after.get(key) == before.get(key):
                    wrong.append(event)
                now.pop(key, None)
                cleared += 1
            elif event[0] == "fence":
                fences += 1
                if at != cleared + 1:
                    wrong.append(event)
            else:
                key, value = event[1:3], event[3:]
                if key in now or (cleared and not fences):
                    wrong.append(event)
                now[key] = value
        self.assertTrue(not wrong and now == after and fences == (cleared > 0),
                        f"{what}: clears, a fence and puts: {[wrong, now, after]}")

    def check_words(self, layout: Layout, before: list[list[int]], after: list[list[int]], events: list[Words],
                    what: str) -> None:
        """Writes of words: what is left is the next image's; in between each slot holds its old record, its new one, or
        none; the gate is written first of a clear and last of a put; and a fence stands behind the last clear where
        there is one."""
        wrong: list[Words] = []
        now = [list(words) for words in before]
        fence = [number for number, event in enumerate(events) if event == ("fence",)]
        for number, event in enumerate(events):
            if event[0] == "fence":
                continue
            _, place, at, value = event
            unit = layout.units[place]
            count = words_of(unit)
            slot = slice(at // count * count, at // count * count + count)
            old, new = record_of(unit, before[place][slot], 2), record_of(unit, after[place][slot], 2)
            now[place][at] = value
            is_cleared = bool(fence) and number < fence[0]
            if record_of(unit, now[place][slot], 2) not in (None,
                                                            new if not is_cleared else old) or (is_cleared and value):
                wrong.append(event)
            if is_cleared and old and record_of(unit, now[place][slot], 2) is not None:
                wrong.append(event)
        cleared = any(a != b and any(a) for units in zip(before, after)
                      for a, b in zip(slotted(layout, before), slotted(layout, after)))
        self.assertTrue(not wrong and now == after and len(fence) == cleared,
                        f"{what}: the writes of words: {wrong[:10]}")

    def check_changes(self, case: ImageCase, pages: list[set[Words]], answers: Answers) -> None:
        """The ways from one image to another, and from tables of 0; `pages` are those of the two."""
        first: Stand = case.images[0], pages[0]
        last: Stand = case.images[-1], pages[1]
        nothing: Stand = None, set()
        for title, before, after in (("forth", first, last), ("back", last, first), ("at first", nothing, first)):
            self.check_change(case.layout, before, after, answers, f"loader: {case.title}, {title}")
        for how in ("change", "words", "changepages"):
            events, status = answers.up_to_end()
            self.assertEqual((len(events), status), (2, (7,)) if len(events) == 2 else (len(events), (0,)),
                             f"{case.title}, {how}: it stops")

    def check_change(self, layout: Layout, old: Stand, new: Stand, answers: Answers, what: str) -> None:
        """The way from one image to another by slots, by words and by pages; each image stands with its pages."""
        (before, old_pages), (image, new_pages) = old, new
        after = image or b""
        had = {slot[:2]: slot[2:] for slot in slots_of(layout, before)} if before else {}
        has = {slot[:2]: slot[2:] for slot in slots_of(layout, after)}
        events, status = answers.up_to_end()
        self.check_events(had, has, events, what)
        written, _ = answers.up_to_end()
        tables = tables_of(layout, before) if before else [[0] * len(words) for words in tables_of(layout, after)]
        self.check_words(layout, tables, tables_of(layout, after), written, what)
        lines = [f"write node {layout.units[place].node} slot {at // words_of(layout.units[place])} word "
                 f"{at % words_of(layout.units[place])} value {value:#x}"
                 for place, at, value in (event[1:] for event in written if event[0] == "write")]
        if {image[4] for image in (before, after) if image} == {2}:
            due = [line for line in listed_changes(before, after) if line != "fence"]
            self.assertEqual(lines, due, f"{what}: netconf-dump2bin lists the same writes")
        paged, _ = answers.up_to_end()
        self.check_paged(old_pages, new_pages, paged, what)
        self.assertEqual(status, (0,), f"{what}: it comes to its end")

    def check_paged(self, before: set[Words], after: set[Words], events: list[Words], what: str) -> None:
        """Changes of pages: those that the next image has not are unmapped, then comes a fence where any was, and then
        those are mapped that the image before had not; the uneven pages of the next image are told."""
        sorts = [event[0] for event in events]
        unmapped, mapped, uneven = ({event[1:] for event in events if event[0] == sort}
                                    for sort in ("unmap", "map", "uneven"))
        had, has = ({page[1:] for page in pages if page[0] == "page"} for pages in (before, after))
        self.assertEqual((unmapped, mapped), (had - has, has - had), f"{what}: which pages are unmapped and mapped")
        self.assertEqual(uneven, {page[1:] for page in after if page[0] == "uneven"},
                         f"{what}: which pages are told as uneven")
        due = ["unmap"] * len(unmapped) + ["fence"] * bool(unmapped)
        self.assertTrue(sorts[:len(due)] == due and not {"unmap", "fence"} & set(sorts[len(due):]),
                        f"{what}: pages are unmapped, then mapped: {sorts}")

    def check_turned(self, case: ImageCase, pages: set[Words], answers: Answers) -> int:
        """What was read in images whose bits were turned, and how such an image becomes the last that was made, whose
        pages these are; returns how many were none of the net."""
        faults = 0
        for number, data in enumerate(case.turned):
            what, due = f"loader: {case.title}, turned {number}", fault_of(case.layout, data)
            self.assertEqual(answers.words(), due, f"{what}: its fault")
            if due[0] != "fine":
                faults += 1
                continue
            _, turned_pages = self.check_image(case, data, answers, what)
            self.check_change(case.layout, (data, turned_pages), (case.images[-1], pages), answers, what)
        return faults

    def check_cases(self, programs: dict[str, pathlib.Path], cases: list[ImageCase], what: str) -> int:
        """Has each build of the harness read some cases, and compares what it says; answers how many faults there
        were."""
        output = run_all(self, programs, "".join(case.requests() for case in cases), what)
        answers, faults = Answers(output), 0
        for case in cases:
            self.assertEqual([answers.words(), answers.words()], [("fine", 0)] * 2,
                             f"{case.title}: its images are taken")
            pages = [self.check_made_image(case, which, answers) for which in (0, 1)]
            self.check_changes(case, pages, answers)
            faults += self.check_turned(case, pages[1], answers)
        self.assertEqual(answers.at, len(answers.lines), f"{what}: nothing more is answered")
        return faults

    def check_made(self, programs: dict[str, pathlib.Path], count: int) -> None:
        """Made descriptions, some at a time."""
        with concurrent.futures.ThreadPoolExecutor(2) as pool:
            refused = granted = faults = 0
            for start in range(0, count, TOGETHER):
                made = list(pool.map(made_case, range(start, min(start + TOGETHER, count))))
                refused += made.count(None)
                cases = [case for case in made if case]
                granted += sum(case.granted for case in cases)
                faults += self.check_cases(programs, cases, f"made nets from {start} on")
        self.assertTrue(refused * 5 <= count, ("most made descriptions are taken", f"{refused} of {count} are refused"))
        self.assertTrue(granted >= 10 * (count - refused) and faults >= count,
                        f"many buffers are given, and many faults told: {[granted, faults]}")

    def test_languages(self) -> None:
        """The header compiles in each language that it is said to be."""
        for compiler, language in LANGUAGES:
            with self.subTest(f"{language.removeprefix('-std=')} to {compiler}"):
                self.need(compiler, PACKAGES[compiler])
                name = ["-x", "c++"] if "++" in compiler else []
                command = [compiler, *name, language, *WARNINGS, "-fsyntax-only", f"-I{LOADER}", HERE / "harness.c"]
                self.assertEqual(built(command), "")

    def test_no_library(self) -> None:
        """The functions call nothing, whatever the compiler makes of copies: no memcpy and no memset."""
        self.need("nm", "gcc")
        source, object_file = self.folder / "functions.c", self.folder / "functions.o"
        source.write_text('#define NETCONF_IMAGE_IMPLEMENTATION\n#include "netconf_image.h"\n')
        for compiler, level in itertools.product(("gcc", "clang"), ("-O0", "-O1", "-O2", "-O3", "-Os")):
            with self.subTest(compiler=compiler, level=level):
                self.need(compiler, PACKAGES[compiler])
                command = [compiler, "-std=c99", level, *WARNINGS, "-ffreestanding", "-fno-pic", "-fno-stack-protector",
                           f"-I{LOADER}", "-c", source, "-o", object_file]
                self.assertEqual(built(command), "")
                self.assertEqual(outcome("nm", "-u", object_file), (0, "", ""))

    def test_forms(self) -> None:
        """Two files of which one has the functions; and one file that has them inline, twice included."""
        self.need("gcc", "gcc")
        called = ('#include "netconf_image.h"\n%s'
                  "int main(void) { return netconf_fault_text(NETCONF_FAULT_NONE)[0] != 'n'; }\n")
        (self.folder / "one.c").write_text(called % "")
        (self.folder / "two.c").write_text('#define NETCONF_IMAGE_IMPLEMENTATION\n#include "netconf_image.h"\n')
        inline = "#define NETCONF_API static inline\n#define NETCONF_IMAGE_IMPLEMENTATION\n"
        (self.folder / "inline.c").write_text(inline + called % '#include "netconf_image.h"\n')
        for files in (["one.c", "two.c"], ["inline.c"]):
            binary = self.folder / "program"
            sources = [self.folder / file for file in files]
            self.assertEqual(built(["gcc", "-std=c99", *WARNINGS, f"-I{LOADER}", *sources, "-o", binary]), "")
            self.assertEqual(outcome(binary), (0, "", ""))

    def test_readers(self) -> None:
        """Each build reads the examples, and made descriptions, as the second reader and the program do."""
        programs = all_builds(self, self.folder)
        if programs:
            self.check_cases(programs, [example_case(path) for path in descriptions()], "the examples")
            self.check_made(programs, MADE)
        self.skip_missing()
