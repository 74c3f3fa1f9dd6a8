"""Rows on their way into frames, and the notices that can still be matched."""
from collections import deque

from .cells import Text, frame_words, parted


class Part:
    """Some rows of a block, from one to before another, as a frame."""

    def __init__(self, block, columns, first, end):
        self.block, self.first, self.end = block, first, end
        self.words = frame_words(columns, first, end)
        self.height = end - first

    def lines(self):
        """The text of these rows."""
        lines = self.block.lines
        return lines if self.height == len(lines) else lines[self.first:self.end]


class Feed:
    """A table's rows in parts, from pairs of a block and its columns, each values and marks."""

    def __init__(self, pairs):
        self.pairs, self.block, self.columns, self.at, self.rows = iter(pairs), None, None, 0, 0

    def take(self, most):
        """The next rows, at most so many; None at the end."""
        if self.block is None or self.at == self.block.height:
            pair = next(self.pairs, None)
            if pair is None:
                return None
            (self.block, self.columns), self.at = pair, 0
            self.block.number = self.rows
        first = self.at
        self.at = min(self.block.height, first + most)
        self.rows += self.at - first
        return Part(self.block, self.columns, first, self.at)


def streamed(source, first, progress):
    """The blocks of a source that is read once, with their columns; the first has been read. Text stands in a column with a list
    alone, so all texts are known."""
    pair = first
    while pair is not None:
        kinds = source.kinds_here()
        yield pair[0], [parted(kind.coded(column) if isinstance(kind, Text) else column) for kind, column in zip(kinds, pair[1])]
        progress()
        pair = source.next()


class Held:
    """The notices that can still be matched, by number, in the blocks that they were read in. Their text for the output is made
    when the first of a block is matched."""

    def __init__(self, texts):
        self.texts, self.blocks = texts, deque()

    def add(self, part):
        """Keeps new notices."""
        if not self.blocks or self.blocks[-1] is not part.block:
            self.blocks.append(part.block)

    def drop(self, pruned):
        """Forgets the notices that the join has dropped."""
        while self.blocks and self.blocks[0].number + self.blocks[0].height <= pruned:
            self.blocks.popleft()

    def between(self, least, most):
        """The texts of the notices from one number to another at least, and the number of the first."""
        found, first = [], None
        for block in self.blocks:
            if block.number <= most and least < block.number + block.height:
                first = block.number if first is None else first
                block.texts = self.texts(block) if block.texts is None else block.texts
                found = found + block.texts if found else block.texts
        return first, found
