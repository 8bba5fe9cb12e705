"""The made input of the timing. That of calls has 16,383 pairs each, since two bytes of 32,768 say what is called."""

PAIRS = 16_383


def with_parity(data):
    return data if data.bit_count() % 2 == 1 else data + 128


def fill(pairs):
    """The pairs over and over, with their parity."""
    made = bytes(with_parity(byte) for pair in pairs for byte in pair)
    return (made * (2 * PAIRS // len(made) + 1))[: 2 * PAIRS]


def every_pair():
    """Every pair of odd bytes but one, in steps, so that the first thousands are of all kinds too."""
    return fill([divmod(i * 6007 % 16384, 128) for i in range(16384)])


TEXT = b"Then she said: it's only a game," b"SO WE WENT HOME & SLEPT, AT LAST"


def captions():
    """Pop-on captions of one row each: the commands doubled, as they are sent, and 32 columns of text."""
    loading, row, shown = (0x14, 0x20), (0x14, 0x60), (0x14, 0x2F)
    pairs = []
    for at in range(0, len(TEXT), 32):
        letters = [(TEXT[i], TEXT[i + 1]) for i in range(at, at + 32, 2)]
        pairs += [loading, loading, row, row, *letters, shown, shown]
    return fill(pairs)


def commands():
    """Sixty-four pairs that are no text: mid-row codes, symbols, commands, tabs and preambles."""
    mid_rows = [(0x11, 0x20 + i) for i in range(0, 16, 2)]
    symbols = [(0x11, 0x30 + i) for i in range(0, 16, 2)] + [(0x12, 0x20 + i) for i in range(0, 32, 4)]
    others = [(0x14, 0x20 + i) for i in range(16)] + [(0x17, 0x21 + i % 3) for i in range(4)]
    preambles = [(0x10 + i % 8, 0x40 + i) for i in range(20)]
    return fill(mid_rows + symbols + others + preambles)


def characters(text):
    """Code points of two bytes each, which are no pairs and have no parity."""
    made = text.encode("utf-16-le")
    return (made * (2 * PAIRS // len(made) + 1))[: 2 * PAIRS]


STANDARD = " !\"#$%&’()á+,-./0123456789:;<=>?@ABCDEFGHIJKLMNOPQRSTUVWXYZ[é]íóúabcdefghijklmnopqrstuvwxyzç÷Ññ█"
SYMBOLS = "®°½¿™¢£♪àèâêîôûÁÉÓÚÜü‘¡*'—©℠•“”ÀÂÇÈÊËëÎÏïÔÙùÛ«»ÃãÍÌìÒòÕõ{}\\^_|~ÄäÖöß¥¤│ÅåØø┌┐└┘"


def english():
    return characters(TEXT.decode())


def every_character():
    return characters(STANDARD + SYMBOLS)


def letters(text):
    """Two to a pair, with filler where one is left."""
    return [(text[i], text[i + 1] if i + 1 < len(text) else 0) for i in range(0, len(text), 2)]


def ending(start, contents):
    return (0x0F, -(sum(start) + sum(contents) + 0x0F) % 128)


def packet(start, contents):
    return [start, *letters(contents), ending(start, contents)]


def packets(count):
    """So many pairs of field two: a programme's title in two parts around a roll-up caption, and the network, the station and the
    time after it, over and over."""
    title, first, second = (0x01, 0x03), b"The Six O'Clock ", b"Evening News"
    command = [(0x15, 0x25), (0x15, 0x25), (0x15, 0x2D), (0x15, 0x2D), (0x14, 0x70), (0x14, 0x70)]
    pairs = [title, *letters(first), *command, *letters(TEXT[:32])]
    pairs += [(0x02, 0x03), *letters(second), ending(title, first + second)]
    pairs += packet((0x05, 0x01), b"Public Network") + packet((0x05, 0x02), b"KQXR") + packet((0x07, 0x01), b"^@KJCF")
    made = bytes(with_parity(byte) for pair in pairs for byte in pair)
    return (made * (2 * count // len(made) + 1))[: 2 * count]
