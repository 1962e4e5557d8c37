"""Trees of pages, in the words of docs/image.md. It shares no code with the program or the tools."""

PAGE = 4096
WORDS = 512


def depth_of(count: int) -> int:
    """How many levels the tree of so many words has."""
    depth = 1
    while WORDS ** depth < count:
        depth += 1
    return depth


def pages(words: list[int], depth: int, at: int) -> bytes:
    """The bytes of the tree of words whose first page stands at a byte."""
    if depth == 1:
        return b"".join(word.to_bytes(8, "little") for word in words).ljust(PAGE, b"\0")
    entries: list[int] = []
    room, below = int(WORDS ** (depth - 1)), b""
    for first in range(0, WORDS * room, room):
        piece, begin = words[first:first + room], at + PAGE + len(below)
        entries.append(begin + 1 if any(piece) else 0)
        below += pages(piece, depth - 1, begin) if any(piece) else b""
    return b"".join(entry.to_bytes(8, "little") for entry in entries) + below


def tree(words: list[int]) -> bytes:
    """The bytes of the tree of words."""
    return pages(words, depth_of(len(words)), 0)


def reply(name: str, words: list[int], pool: int) -> str:
    """What `radix` prints of a unit with these words."""
    data = tree(words)
    count = len(data) // PAGE
    if count > pool:
        return f"radix {name} refused: Pool {count}\n"
    lines = [data[at:at + 32].hex() for at in range(0, len(data), 32)]
    return f"radix {name} pages {count}\n" + "".join(line + "\n" for line in lines)
