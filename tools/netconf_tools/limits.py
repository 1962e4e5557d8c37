"""The limits of the program, as its sources have them: each stands here once for all tools.

A test compares each with the constant of the crates. docs/language.md says what meets it."""

MAX_TEXT = 1 << 22
"""The bytes of a description."""

MAX_AUDIT = 1 << 26
"""The bytes of a description, a byte 0x00 and an image, which `netconf audit` reads."""

LAST_ADDRESS = (1 << 56) - 1
"""The last address of a node."""

LAST_NUMBER = (1 << 64) - 1
"""The greatest number, and the greatest value of an expression."""

MAX_NODES = 1024
"""The nodes of a description."""

MAX_AGENTS = 64
"""The agents of a description."""

MAX_UNITS = 64
"""The units of a description."""

MAX_PARTS = 16384
"""The blocks, entries, `over` and ports of all nodes together, as the program counts them."""

MAX_MODULES = 256
"""The modules of a description."""

MAX_STEPS = 65536
"""The steps of an expansion: nodes, uses and turns of loops."""

MAX_DESTINATIONS = 8
"""The destinations of an entry, and the pieces of a `gather`."""

MAX_VECTORS = 4096
"""The different addresses that a `vectors` node accepts."""

MAX_PORTS = 8
"""The ports of a unit."""

MAX_PAGE = 40
"""The power of two of a unit's page."""

MAX_SLOTS = 262144
"""The slots of a unit."""

MAX_REACH = 56
"""The power of two at which the outputs of a unit end."""

MAX_GRANTS = 4096
"""The grants and routes that live at a time."""

MAX_RECORD_WORDS = 4
"""The words of a record."""
