"""areas.py: the blocks of an AREA variable, for meaning.py.

It is written from the rules of areas alone. An area has so many bytes, from 0 on. A block has a position in it, a multiple of 8; its header
takes the 8 bytes before that, what it holds the bytes from there on, rounded up to a multiple of 8. No two blocks meet.
"""
from typed import size_of

HEADER = UNIT = 8


class Full(Exception):
    """An area has no room."""


class Block:
    """What is allocated in an area: a description, and a value for each scalar of it."""

    def __init__(self, description, values):
        self.description, self.values = description, values
        self.bytes = -(-size_of(description)[0] // UNIT) * UNIT


class Area:
    """The blocks of an area of so many bytes, by their positions."""

    def __init__(self, capacity):
        self.capacity, self.blocks = capacity, {}

    def is_free(self, first, end):
        """Whether no block covers one of these bytes."""
        return all(end <= position - HEADER or position + block.bytes <= first for position, block in self.blocks.items())

    def allocate(self, description, values):
        """The position of a block more, the lowest at which it has room."""
        made = Block(description, values)
        for position in range(HEADER, self.capacity - made.bytes + 1, UNIT):
            if self.is_free(position - HEADER, position + made.bytes):
                self.blocks[position] = made
                return position
        raise Full

    def extent(self):
        """The end of the last block, 0 without one."""
        return max((position + block.bytes for position, block in self.blocks.items()), default=0)

    def assign(self, source):
        """Copies of all blocks of another area, in the place of its own."""
        if source.extent() > self.capacity:
            raise Full
        self.blocks = {position: Block(block.description, list(block.values)) for position, block in source.blocks.items()}
