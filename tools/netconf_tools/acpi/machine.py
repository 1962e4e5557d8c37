"""A machine by its tables of ACPI, as nodes of a description."""
from collections.abc import Callable, Sequence
from dataclasses import dataclass, field
from typing import TypeVar

from netconf_tools.acpi import amd, iort, rimt, vtd
from netconf_tools.acpi.iomem import Iomem
from netconf_tools.acpi.pci import Function
from netconf_tools.acpi.platform_tables import (PAGE, Controllers, Registers, configuration_of, controllers_of,
                                                memory_of)
from netconf_tools.acpi.tables import Tables
from netconf_tools.acpi.translation import (LAST, SEGMENT, Mapping, Translator, Translators, function_name,
                                            function_text)
from netconf_tools.devicetree.fault import Fault
from netconf_tools.devicetree.naming import Names, word
from netconf_tools.devicetree.net import Claim, Entry, NetNode, Unit
from netconf_tools.devicetree.options import SLOTS
from netconf_tools.devicetree.platform import MAX_AGENTS, MAX_NODES, MAX_PARTS, MAX_UNITS
from netconf_tools.devicetree.spans import TOP, Span, Taken, meet, text
from netconf_tools.devicetree.tree import Note
from netconf_tools.devicetree.units import PAGE as PAGE_BITS

Found = TypeVar("Found")

MOST_MAPPINGS = 4096
"""How many ranges of functions of one table are read."""
NO_MEMORY = "no memory in the tables: give it by --memory FIRST-LAST, or by --iomem with the text of /proc/iomem"


@dataclass
class Sources:
    """What a machine is read from: the tables, the functions of PCI if they are known, ``/proc/iomem`` if it is given,
    and the memory if that is given."""

    tables: Tables
    functions: Sequence[Function] | None = None
    iomem: Iomem | None = None
    memory: Sequence[Span] = ()


@dataclass(eq=False)
class Master:
    """Functions that share one table of an IOMMU, or none: what the note on them has, and the mappings of their
    numbers if they have any."""

    name: str
    parts: list[str]
    unit: Translator | None
    others: list[str] = field(default_factory=list)


class AcpiMachine:
    """What a description has of a machine without a tree.

    ``system`` is what a processor sees, ``agents`` the processors and the functions, ``notes`` what is left out,
    ``left_out`` the masters that are no agents, and ``remarks`` whole lines of comments."""

    def __init__(self, sources: Sources, each_core: bool = False, slots: int = SLOTS):
        self.names = Names()
        self.notes: list[str] = []
        self.left_out: list[Note] = []
        self.remarks: list[str] = []
        self.slots = slots
        self.taken = Taken()
        self.nodes: list[NetNode] = []
        self.memory: list[tuple[Span, NetNode]] = []
        self.system = NetNode(None, "", "the addresses of the machine")
        self.system.name = self.names.free("system")
        self.units: list[NetNode] = []
        self.agents: list[NetNode] = []
        controllers = self._read("APIC", sources, controllers_of, Controllers())
        self.translators = self._translators(sources)
        self._add_memory(sources)
        self._add_registers(sources, controllers)
        self._add_processors(controllers, each_core)
        self._add_masters(sources)
        self._add_reserved(sources)
        self._add_messages(controllers)
        self.system.entries.sort(key=lambda entry: entry.first)
        self._check_limits()

    def _read(self, signature: str, sources: Sources, reader: Callable[[bytes], Found], default: Found) -> Found:
        """What a reader finds in a table; ``default`` where there is no such table, and where it is broken, with a
        note."""
        table = sources.tables.get(signature)
        if table is None:
            return default
        try:
            return reader(table)
        except Fault as fault:
            self.notes.append(f"the table {signature} is passed over: {fault}")
            return default

    def _translators(self, sources: Sources) -> Translators:
        """The IOMMUs of all tables."""
        whole = Translators()
        readers = (("DMAR", vtd.translators_of), ("IVRS", amd.translators_of), ("IORT", iort.translators_of),
                   ("RIMT", rimt.translators_of))
        for signature, reader in readers:
            found = self._read(signature, sources, reader, Translators())
            count = sum(len(unit.mappings) for unit in found.units)
            if count > MOST_MAPPINGS:
                raise Fault(f"{signature} names {count} ranges of functions, and at most {MOST_MAPPINGS} are read")
            whole.units += found.units
            whole.reserved += found.reserved
            self.notes += found.notes
        return whole

    def _add_node(self, name: str, span: Span, source: str, base: int = 0) -> NetNode | None:
        """Adds a node at some addresses of the machine, those that no earlier one has; ``base`` is its first
        address."""
        if span[1] > TOP or span[0] > span[1]:
            self.notes.append(f"{name}: {text(*span)} has addresses past {TOP:#x}")
            return None
        free = self.taken.take(*span)
        if free != [span]:
            self.notes.append(f"{name}: {text(*span)} meets what stands there already" + " in part" * bool(free))
        if not free:
            return None
        node = NetNode(None, "", source)
        node.name = self.names.free(word(name))
        for first, last in free:
            at = base + first - span[0]
            node.accept.append((at, at + last - first))
            self.system.entries.append(Entry(first, last, (Claim(first, last, node, at, source),)))
        self.nodes.append(node)
        return node

    def _add_memory(self, sources: Sources) -> None:
        """Adds the memory: that which is given, or that of ``/proc/iomem``, or that of the SRAT."""
        spans, source = list(sources.memory), "--memory"
        if not spans and sources.iomem:
            spans, source = sources.iomem.memory, "/proc/iomem"
        if not spans:
            spans, source = self._read("SRAT", sources, memory_of, []), "SRAT"
        for first, last in spans:
            node = self._add_node(f"memory_{first:x}", (first, last), f"memory by {source}")
            if node:
                self.memory.append(((first, last), node))
        if not self.memory:
            self.notes.append(NO_MEMORY)

    def _add_registers(self, sources: Sources, controllers: Controllers) -> None:
        """Adds the registers of controllers and IOMMUs, the configuration addresses of PCI, and its windows."""
        none: list[Registers] = []
        configuration = self._read("MCFG", sources, configuration_of, none)
        units = [Registers(unit.name, unit.first, unit.size) for unit in self.translators.units]
        for registers, table in ((controllers.registers, "MADT"), (units, "registers"), (configuration, "MCFG")):
            for name, first, size in registers:
                if size:
                    self._add_node(name, (first, first + size - 1), f"{name} by {table}")
        for name, (first, last) in sources.iomem.windows if sources.iomem else ():
            self._add_node(f"{name}_{first:x}", (first, last), f"{name}, a window by /proc/iomem", first)

    def _add_processors(self, controllers: Controllers, each: bool) -> None:
        """Adds the processors: one agent for all, since each sees the same, or one for each."""
        count = len(controllers.processors)
        named = [(f"cpu_{number:x}", f"processor {number:#x}") for number in controllers.processors] if each else \
            [("cpu_0", f"{count} processors that see the same" if count != 1 else "the processor")][:count]
        for name, source in named:
            self._add_agent(NetNode(None, "", source, over=self.system, agent=True), name)

    def _add_agent(self, agent: NetNode, name: str) -> None:
        """Adds an agent."""
        agent.name = self.names.free(name)
        self.agents.append(agent)

    def _add_masters(self, sources: Sources) -> None:
        """Adds the functions of PCI, each table of an IOMMU as a unit; what does not fit is left out."""
        masters = self._known(sources.functions) if sources.functions is not None else self._unknown(sources)
        untranslated = [master for master in masters if master.unit is None]
        if len(self.agents) + len(masters) > MAX_AGENTS and len(untranslated) > 1:
            first = untranslated[0]
            first.others += [other.parts[0] for other in untranslated[1:]]
            masters = [master for master in masters if master.unit or master is first]
        for master in masters:
            room = len(self.agents) < MAX_AGENTS and (master.unit is None or len(self.units) < MAX_UNITS)
            if room:
                self._add_master(master)
                continue
            for part in [master.parts[0], *master.others]:
                what = "agents" if len(self.agents) >= MAX_AGENTS else "units"
                self.left_out.append(Note(part, f"a description has at most {MAX_AGENTS} {what}"))

    def _add_master(self, master: Master) -> None:
        """Adds the agent of functions that share a table, and the unit that is the table."""
        source = ", with ".join([", ".join(master.parts), *master.others])
        if master.unit is None:
            self._add_agent(NetNode(None, "", f"{source}, 1:1 behind no IOMMU", over=self.system,
                                    agent=True),
                            master.name)
            return
        unit = NetNode(None, "", f"{master.unit.name}, for {source}",
                       unit=Unit(PAGE_BITS, self.slots, master.unit.bits, self.system))
        unit.name = self.names.free(f"{master.name}.iommu")
        self.units.append(unit)
        last = (self.slots << PAGE_BITS) - 1
        entry = Entry(0, last, (Claim(0, last, unit, 0, f"{master.unit.name} translates"),))
        self._add_agent(NetNode(None, "", source, entries=[entry], agent=True), master.name)

    def _known(self, functions: Sequence[Function]) -> list[Master]:
        """The masters where the functions are known. Those that one IOMMU cannot tell apart are one."""
        found: dict[tuple[str, int, int], Master] = {}
        for function in functions:
            if function.is_bridge:
                continue
            translated = self.translators.of(function.requester)
            unit, stream = translated if translated else (None, function.requester)
            key = (unit.name, 0, stream) if unit else ("", 0, function.requester)
            if unit and function.group is not None:
                key = unit.name, 1, function.group
            parts = [function_text(function.requester)]
            parts += [f"stream {stream:#x}"] * bool(unit and unit.has_streams) + [f"device {function.name}"]
            if key in found:
                found[key].others.append(", ".join(parts))
            else:
                found[key] = Master(function_name(function.requester), parts, unit)
        return list(found.values())

    def _unknown(self, sources: Sources) -> list[Master]:
        """The masters where the functions are not known: those that the tables name, one function of each range, and
        one of those that nothing translates."""
        found = []
        for unit in self.translators.units:
            for mapping in unit.mappings:
                found.append(_of_mapping(unit, mapping))
            for segment in unit.rest:
                parts = [f"a function of segment {segment:x} that no other IOMMU translates for"]
                found.append(Master(f"pci_{segment:x}_others", parts, unit))
        for segment in self._segments(sources):
            if not self._is_whole(segment):
                parts = [f"functions of segment {segment:x} that no IOMMU names"]
                found.append(Master(f"pci_{segment:x}_untranslated", parts, None))
        return found

    def _segments(self, sources: Sources) -> list[int]:
        """The segments of PCI that the tables know."""
        table = sources.tables.get("MCFG", b"")
        listed = [int.from_bytes(table[at + 8:at + 10], "little") for at in range(44, len(table) - 15, 16)]
        listed += [mapping.first >> SEGMENT for unit in self.translators.units for mapping in unit.mappings]
        return sorted(set(listed) | {segment for unit in self.translators.units for segment in unit.rest})

    def _is_whole(self, segment: int) -> bool:
        """Whether IOMMUs translate all functions of a segment."""
        first, last = segment << SEGMENT, segment << SEGMENT | LAST
        covered = Taken()
        for unit in self.translators.units:
            if segment in unit.rest:
                return True
            for mapping in unit.mappings:
                covered.take(mapping.first, mapping.last)
        return not covered.take(first, last)

    def _add_reserved(self, sources: Sources) -> None:
        """Adds notes on reserved memory: of the tables, with who has to see it, and of ``/proc/iomem``."""
        spans = [(span, f"{table} for {who}, which has to see it at these addresses of the machine")
                 for span, who, table in self.translators.reserved]
        spans += [(span, "reserved by /proc/iomem") for span in (sources.iomem.reserved if sources.iomem else ())]
        for span, what in spans:
            places = [(node, meet([span], [whole]), whole) for whole, node in self.memory]
            for node, met, whole in places:
                self.remarks += [f"//@ {node.name} is reserved {text(low - whole[0], high - whole[0])}, {what}"
                                 for low, high in met]
            if not any(met for _node, met, _whole in places):
                self.remarks.append(f"// reserved memory: {text(*span)}, {what}")

    def _add_messages(self, controllers: Controllers) -> None:
        """Adds comments on messages that an SMMU translates, each with the grant that lets them through."""
        translating = {unit.name for unit in self.translators.units if unit.translates_messages}
        number = 0
        for agent in self.agents:
            unit = next((entry.ways[0].target for entry in agent.entries), None)
            if unit is None or unit.source.split(", ")[0] not in translating:
                continue
            for page in controllers.doorbells:
                for node, at in self._at(page):
                    number += 1
                    self.remarks.append(f"// messages of {agent.name} are writes to {node.name} that the SMMU "
                                        "translates; the grant that lets them through:")
                    self.remarks.append(f"// grant doorbell_{number} {agent.name} {node.name} {at:#x} {PAGE:#x} for "
                                        "write;")

    def _at(self, address: int) -> list[tuple[NetNode, int]]:
        """The nodes that stand at an address of the machine, each with the address there."""
        return [(node, at) for _low, _high, node, at in self.system.rows(address, address)]

    def _check_limits(self) -> None:
        """Refuses what needs more than the language allows."""
        nodes = self.statements()
        parts = sum(len(node.accept) + len(node.entries) + (node.over is not None) for node in nodes)
        for needed, limit, what in ((len(nodes), MAX_NODES, "nodes"), (len(self.agents), MAX_AGENTS, "agents"),
                                    (parts, MAX_PARTS, "parts")):
            if needed > limit:
                raise Fault(f"the machine needs {needed} {what}, and a description has at most {limit}")

    def statements(self) -> list[NetNode]:
        """The nodes in the order of the text."""
        return [self.system, *self.nodes, *self.units, *self.agents]

    def agent(self, called: str) -> NetNode:
        """The agent of a name."""
        for agent in self.agents:
            if called == agent.name:
                return agent
        raise Fault(f"no agent {called}; the agents are: {', '.join(agent.name for agent in self.agents) or 'none'}")


def _of_mapping(unit: Translator, mapping: Mapping) -> Master:
    """The master of a mapping: one function, or one of several."""
    last = mapping.stream + mapping.last - mapping.first
    if mapping.first == mapping.last:
        streams = [f"stream {mapping.stream:#x}"] * unit.has_streams
        return Master(function_name(mapping.first), [function_text(mapping.first), *streams], unit)
    streams = [f"streams {text(mapping.stream, last)}"] * unit.has_streams
    span = f"a function from {function_text(mapping.first)} to {function_text(mapping.last)}"
    return Master(f"{function_name(mapping.first)}_and_on", [span, *streams], unit)
