"""A line of a text made visible: tabs, spaces and stray bytes can be seen, and a part of it is marked below."""

TAB, SPACE = '→', '·'


OTHERS = {9: TAB, 32: SPACE, 10: '\\n', 13: '\\r'}


def visible(piece):
    """Each byte as what is shown for it."""
    return [chr(byte) if 33 <= byte <= 126 else OTHERS.get(byte, f'\\x{byte:02X}') for byte in piece]


def marked(line, start, length):
    """Two lines: the bytes, and marks below those from start on; at least one mark, at the end where start is there."""
    cells = visible(line)
    before, under = sum(map(len, cells[:start])), sum(map(len, cells[start:start + length]))
    return [''.join(cells), ' ' * before + '^' * max(1, under)]


MOST_SHOWN = 100


def cut(line, start, length):
    """The part of a long line around its mark, and where the mark is in it."""
    if len(line) <= MOST_SHOWN:
        return line, start, length
    first = max(0, min(start - MOST_SHOWN // 2, len(line) - MOST_SHOWN))
    return line[first:first + MOST_SHOWN], start - first, min(length, first + MOST_SHOWN - start)
