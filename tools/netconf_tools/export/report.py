"""Says what stands where in exported tables: as a text, as JSON, and as a header in C."""

import json
import re
from dataclasses import dataclass

from netconf_tools.ending import plain
from netconf_tools.export.formats import Command, Part, Register
from netconf_tools.export.memory import PAGE, Plan
from netconf_tools.export.streams import Master
from netconf_tools.export.tables import Change, Member, Unit, Wanted
from netconf_tools.export.vtd import function_text
from netconf_tools.layout_text import columns


@dataclass(frozen=True)
class Line:
    """An agent in the report: one of its numbers, if it has any, and where that number's entry stands."""
    member: Member
    number: int | None
    entry: int | None


def number_text(form_note: str, number: int) -> str:
    """Returns a number as its note has it."""
    return function_text(number) if form_note == "pci" else f"stream {number:#x}"


def lines_of(wanted: Wanted, unit: Unit, plan: Plan) -> list[Line]:
    """Returns a line for each number of each agent of a unit, and one for each agent without a number."""
    lines = []
    for member in unit.members:
        lines += [Line(member, number, unit.head.place(plan.memory, number)) for number in member.master.numbers]
        if not member.master.numbers:
            lines.append(Line(member, None, None))
    return lines


def pages_in(plan: Plan) -> int:
    """Returns how many pages the tables have."""
    return (plan.memory.end - plan.memory.base) // PAGE


def warnings(wanted: Wanted) -> list[str]:
    """Returns what is left out: agents, and entries above the tables of agents."""
    masters: list[Master] = [member.master for unit in wanted.units for member in unit.members]
    return [*wanted.left, *(f"no entry leads to the tables of {master.agent}: {master.why_none}" for master in masters
                            if master.why_none)]


def as_text(wanted: Wanted, plan: Plan) -> str:
    """Returns where everything stands, as a text."""
    form, bits = wanted.form, wanted.options.bits
    text = [f"format {form.name}, {bits} bits, {form.levels(bits)} levels; {pages_in(plan) * PAGE} bytes at "
            f"{wanted.base:#x}\n",
            f"manual {form.manual}\n"]
    for unit in wanted.units:
        if unit.hardware:
            text.append(f"\nunit {plain(unit.hardware)}\n")
        text += columns(["register", "offset", "value"], [[name, f"{offset:#x}", f"{value:#x}"]
                                                          for name, offset, value in unit.head.registers()])
        text += columns(["above the tables", "address", "bytes"],
                        [[what, f"{address:#x}", f"{size:#x}"] for what, address, size in unit.head.parts()])
        rows = [line_cells(form.note, line) for line in lines_of(wanted, unit, plan)]
        text += columns(["agent", "number", "entry", "root", "domain", "rows"], rows)
        text += columns(["command", "", "at the start"], [command_cells(command)
                                                          for command in form.forget_all(unit.head)])
    spans: list[list[object]] = [[plain(member.master.agent), span.text()] for unit in wanted.units
                                 for member in unit.members
                                 for span in member.spans]
    text += columns(["agent", "sees"], spans)
    return "".join(text)


def line_cells(note: str, line: Line) -> list[object]:
    """Returns an agent with one of its numbers as the cells of a row."""
    member = line.member
    number = "-" if line.number is None else number_text(note, line.number)
    entry = "-" if line.entry is None else f"{line.entry:#x}"
    return [plain(member.master.agent), number, entry, f"{member.root:#x}", member.domain, len(member.spans)]


def command_cells(command: Command) -> list[object]:
    """Returns a command as the cells of a row."""
    return [*(f"{word:#018x}" for word in command.words), command.what]


def as_json(wanted: Wanted, plan: Plan) -> str:
    """Returns where everything stands, as JSON. Addresses and words are texts in hexadecimal, other numbers are
    numbers."""
    form, bits = wanted.form, wanted.options.bits
    found = {"format": form.name, "manual": form.manual, "bits": bits, "levels": form.levels(bits),
             "at": f"{wanted.base:#x}",
             "bytes": pages_in(plan) * PAGE, "units": [unit_json(wanted, unit, plan) for unit in wanted.units],
             "left_out": warnings(wanted)}
    return json.dumps(found, indent=1) + "\n"


def unit_json(wanted: Wanted, unit: Unit, plan: Plan) -> dict[str, object]:
    """Returns a unit of hardware as JSON has it."""
    agents = []
    for member in unit.members:
        entries = [{"number": f"{line.number:#x}", "entry": f"{line.entry:#x}"} for line in lines_of(wanted, unit, plan)
                   if line.member is member and line.number is not None and line.entry is not None]
        rows = [{"first": f"{span.first:#x}", "last": f"{span.last:#x}", "host": f"{span.host:#x}",
                 "read": span.may_read,
                 "write": span.may_write, "device": span.is_device} for span in member.spans]
        agents.append({"agent": member.master.agent, "root": f"{member.root:#x}", "domain": member.domain,
                       "entries": entries,
                       "rows": rows})
    return {"unit": unit.hardware, "registers": [register_json(register) for register in unit.head.registers()],
            "parts": [part_json(part) for part in unit.head.parts()], "agents": agents,
            "commands": [command_json(command) for command in wanted.form.forget_all(unit.head)]}


def register_json(register: Register) -> dict[str, str]:
    """Returns a register as JSON has it."""
    return {"name": register.name, "offset": f"{register.offset:#x}", "value": f"{register.value:#x}"}


def part_json(part: Part) -> dict[str, object]:
    """Returns a part of the words above the tables as JSON has it."""
    return {"what": part.what, "address": f"{part.address:#x}", "bytes": part.size}


def command_json(command: Command) -> dict[str, object]:
    """Returns a command as JSON has it."""
    return {"words": [f"{word:#x}" for word in command.words], "what": command.what}


def as_header(wanted: Wanted, plan: Plan, prefix: str) -> str:
    """Returns where everything stands, as a header in C with constants whose names begin with a prefix."""
    upper = prefix.upper()
    lines = [f"/* Tables in the format {wanted.form.name}. Made by netconf-export of the description: change that one. "
             "*/",
             f"#ifndef NETCONF_TABLES_{upper}_H", f"#define NETCONF_TABLES_{upper}_H", "", "#include <stdint.h>", "",
             define(upper, "AT", wanted.base), define(upper, "SIZE", pages_in(plan) * PAGE)]
    several = len(wanted.units) > 1
    for place, unit in enumerate(wanted.units):
        name = f"UNIT{place}_" if several else ""
        lines += ["", f"/* The unit {unit.hardware}. */"] if unit.hardware and "*/" not in unit.hardware else [""]
        for register in unit.head.registers():
            lines += [define(upper, f"{name}{word(register.name)}", register.value),
                      define(upper, f"{name}{word(register.name)}_OFFSET", register.offset)]
        for member in unit.members:
            agent = f"{name}{word(member.master.agent)}"
            lines += [define(upper, f"{agent}_ROOT", member.root), define(upper, f"{agent}_DOMAIN", member.domain)]
            lines += [define(upper, f"{agent}_NUMBER{at or ''}", number)
                      for at, number in enumerate(member.master.numbers)]
        words = [number for command in wanted.form.forget_all(unit.head) for number in command.words]
        lines += [f"#define {upper}_{name}FORGET_ALL {{{', '.join(f'UINT64_C({number:#x})' for number in words)}}}"]
    return "\n".join([*lines, "", "#endif"]) + "\n"


def define(prefix: str, name: str, value: int) -> str:
    """Returns a constant of 64 bits."""
    return f"#define {prefix}_{name} UINT64_C({value:#x})"


def word(name: str) -> str:
    """Returns a name as a part of a constant's name in C."""
    return re.sub(r"\W+", "_", name, flags=re.A).strip("_").upper()


def changes_text(change: Change) -> str:
    """Returns changes as lines: words to write, pages of zeros, fences, and the commands of each fence."""
    lines = [f"write {write.address + 8 * place:#x} {value:#x}" for write in change.plan.clears
             for place, value in enumerate(write.words)]
    if change.plan.clears:
        lines += ["fence", *command_lines(change.after_clears)]
    for write in change.plan.makes:
        is_page = write.address % PAGE == 0 and len(write.words) * 8 % PAGE == 0 and write.address in change.plan.taken
        if is_page:
            lines.append(f"zero {write.address:#x} {len(write.words) * 8:#x}")
        lines += [f"write {write.address + 8 * place:#x} {value:#x}" for place, value in enumerate(write.words) if value
                  or not is_page]
    if change.after_makes:
        lines += [f"fence  # {change.why_after_makes}", *command_lines(change.after_makes)]
    return "".join(line + "\n" for line in lines)


def command_lines(commands: list[Command]) -> list[str]:
    """Returns commands as lines."""
    return [f"command {' '.join(f'{number:#x}' for number in command.words)}  # {command.what}" for command in commands]


def changes_json(change: Change) -> str:
    """Returns changes as a list in JSON, with an object for each line of the text."""
    found: list[dict[str, object]] = []
    for line in changes_text(change).splitlines():
        words, _, what = line.partition("  # ")
        kind, *numbers = words.split(" ")
        if kind == "write":
            found.append({"write": numbers[0], "value": numbers[1]})
        elif kind == "zero":
            found.append({"zero": numbers[0], "bytes": int(numbers[1], 16)})
        elif kind == "fence":
            found.append({"fence": True, **({"needed": what} if what else {})})
        else:
            found.append({"command": numbers, "what": what})
    return json.dumps(found, indent=1) + "\n"
