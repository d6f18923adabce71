"""Changes of a case, drawn at random: its words, and its input by bytes, numbers and pieces that mean something."""
from .cases import MOST_INPUT, Case

COMMANDS = """ltc-read ltc-worn ltc-rough ltc-fly ltc-spans ltc-mtc ltc-jam ltc-chase ltc-make ltc-convert ltc-load
    ltc-pcm pcm-ltc wav-ltc mtc-read vitc-read vitc-make luma-vitc chase number label labels help version""".split()
VOCABULARY = [*COMMANDS, *"""24 25 30 30d forward backward worn rough firm follow deep live path ntsc plus minus since
    to seconds number label 1 2 00:00:00:00 00:00:00;00 23:59:59:23 23:59:59:24 23:59:59:29 23:59:59;29 00:01:00;00
    00:01:00;02 00:10:00;00 12:00:00:00 24:00:00:00 23:60:00:00 23:59:60:00 23:59:59:30 statuses play wait
    locate""".split()]
EDGES = sorted({
    around
    for edge in (
        0, 2, 4, 8, 13, 16, 20, 24, 25, 30, 32, 40, 60, 64, 80, 89, 90, 100, 115, 128, 140, 255, 256, 360, 400, 460,
        512, 720, 1000, 1024, 1272, 2560, 4096, 8192, 32767, 32768, 65535, 65536, 100000, 1000000, 2073600, 2160000,
        2589408, 2592000, 6250000, 8388607, 16777215, 100000000, 1 << 31, 2147418112, (1 << 32) - 1, 1 << 40, 1 << 63,
        (1 << 64) - 1,
    )
    for around in (edge - 1, edge, edge + 1)
    if around >= 0
})
TOKENS = [
    # intervals
    b"LTCI", b"LTCI\x01\x19\0\0\0\0\xbb\x80", b"LTCI\x02\x1e\0\0\0\0\xbb\x80", b"\0\0\xff\xff\xff\xff",
    b"\0\0\0\1\0\0", b"\x00\xff\xff\xff",
    # lines
    b"VITL", b"VITL\x01\x19\0\0\0\0\x07\x30", b"VITL\x01\x1e\0\0\0\0\x01\xcc", b"\x14", b"\x15", b"\x59", b"\x5b",
    b"\0",
    # sound
    b"RIFF", b"RF64", b"BW64", b"WAVE", b"fmt ", b"data", b"ds64", b"JUNK", b"LIST\x04\0\0\0INFO", b"bext",
    b"\x10\0\0\0\1\0\1\0", b"\xfe\xff", b"\xff\xff\xff\xff", b"\0\0\0\x80", b"\0\0\xff\x7f", b"\0" * 8,
    b"\xff\x7f", b"\x00\x80", b"\x01\x80", b"\x00\x00\xff\x7f\x00\x80",
    # MIDI
    b"\xf0\x7f\x7f\x01\x01", b"\xf7", b"\xf8", b"\xff", b"\xf1", b"\x90\x3c\x64", b"\xf0",
    b"\xf0\x7f\x7f\x01\x01\x2a\x0b\x0c\x0d\xf7", b"\xf1\x00\xf1\x10\xf1\x20\xf1\x30\xf1\x40\xf1\x50\xf1\x60\xf1\x72",
    b"\xf1\x72\xf1\x60\xf1\x50\xf1\x40\xf1\x30\xf1\x20\xf1\x10\xf1\x00",
    # scripts and labels
    b"\n", b"\r\n", b"\r", b",", b'"', b'""', b",,,,\n", b"play,,,,\n", b"wait,,,,1\n", b"locate,10:00:00:00,,,-8\n",
    b"\xef\xbb\xbf", b"forward", b"backward", b"-", b".", b"00:00:00:00", b"00:01:00;02\n", b"23:59:59:24\n",
    b"86399.999\n", b"0.000\n", b"2589407\n", b"9999999\n",
]


def number_word(draws):
    """A number as a word: near an edge, now and then with zeros before it."""
    word = str(draws.choice(EDGES))
    return (word.zfill(draws.choice((2, 3, 19, 20, 21))) if draws.random() < 0.15 else word).encode()


def byte_of_a_word(word, draws):
    """The word with a byte changed, put in or left out. No word has the byte 0."""
    place = draws.randrange(len(word) + 1)
    put = bytes([draws.choice((draws.randrange(1, 256), draws.randrange(48, 60), 45, 32))])
    return word[:place] + draws.choice((put + word[place:], put + word[place + 1:], word[place + 1:]))


def near(word, draws):
    """A word like this one: if it is a number, one beside it."""
    if word.isdigit() and len(word) < 20:
        value = int(word)
        return str(max(0, draws.choice((value - 1, value + 1, 2 * value, value // 2, value * 10)))).encode()
    return byte_of_a_word(word, draws)


def changed_words(words, others, draws):
    """The words with one of them changed, put in, left out, doubled, or taken from another case."""
    words = list(words)
    place = draws.randrange(len(words) + 1)
    way = draws.randrange(10)
    if place == len(words) or way == 0:
        name = draws.choice(VOCABULARY).encode()
        words.insert(place, draws.choice((name, number_word(draws), b"", b"-" + number_word(draws))))
    elif way == 1:
        del words[place]
    elif way in (2, 3):
        words[place] = number_word(draws)
    elif way == 4:
        words[place] = draws.choice(VOCABULARY).encode()
    elif way == 5:
        words[place] = byte_of_a_word(words[place], draws)
    elif way == 6 and place < len(others):
        words[place] = others[place]
    elif way == 7:
        words = [*words[:place], *others[place:]]
    else:
        words[place] = near(words[place], draws)
    return tuple(words[:40])


def a_number(draws):
    """A number near an edge, in some bytes, in one of both orders."""
    size = draws.choice((1, 2, 2, 3, 4, 4, 8))
    value = draws.choice(EDGES) if draws.random() < 0.8 else draws.getrandbits(64)
    return (value % (1 << 8 * size)).to_bytes(size, draws.choice(("little", "big")))


def changed_bytes(data, other, draws):
    """Changes the bytes in one place."""
    size = len(data)
    front = draws.random() < 0.35
    place = draws.randrange(min(size, 64) + 1 if front else size + 1)
    length = min(draws.choice((1, 1, 2, 4, 8, 40, 400)), size - place)
    way = draws.randrange(14)
    if way == 0 and length:
        data[place] ^= 1 << draws.randrange(8)
    elif way == 1 and length:
        data[place] = draws.randrange(256)
    elif way == 2 and length:
        data[place] = (data[place] + draws.choice((-1, 1, -16, 16))) % 256
    elif way == 3:
        put = a_number(draws)
        data[place:place + len(put)] = put
    elif way == 4:
        data[place:place] = a_number(draws)
    elif way == 5:
        put = draws.choice(TOKENS)
        data[place:place + len(put)] = put
    elif way == 6:
        data[place:place] = draws.choice(TOKENS)
    elif way == 7:
        del data[place:place + length]
    elif way == 8:
        data[place:place] = data[place:place + length] * draws.choice((1, 1, 3, 20, 100))
    elif way == 9:
        del data[place:]
    elif way == 10 and other:
        start = draws.randrange(len(other))
        data[place:place] = other[start:start + draws.choice((1, 4, 16, 100, 2000))]
    elif way == 11 and other:
        data[place:] = other[draws.randrange(len(other)):]
    elif way == 12 and size:
        start = draws.randrange(size)
        data[place:place + length] = data[start:start + length]
    elif way == 13:
        data[place:place] = bytes([draws.choice((0, 255, 128, 0xF8, 10, 44))]) * draws.choice((1, 4, 30, 90, 600))


def fault(draws):
    """How the system calls of a run fail: mostly not at all."""
    kinds = ("read-pieces", "read-pieces", "read-fails", "write-fails", "write-pieces", "no-memory", "note-fails")
    kind = draws.choice(kinds)
    most = draws.choice((2, 6, 30, 200))
    return kind, draws.randrange(10000) if kind.endswith("pieces") else draws.randrange(most)


def changed(case, other, draws):
    """A case made of this one, and of another one of the same command now and then."""
    words, data = case.words, bytearray(case.input)
    with_words = 0.2 if data else 0.9
    for _ in range(draws.choice((1, 1, 1, 2, 3, 6, 12))):
        if draws.random() < with_words:
            words = changed_words(words, other.words, draws)
        else:
            changed_bytes(data, other.input, draws)
    kind, number = (case.fault, case.number) if draws.random() < 0.5 else ("none", 0)
    if draws.random() < 0.12:
        kind, number = fault(draws)
    return Case(tuple(word.replace(b"\0", b"0") for word in words), bytes(data[:MOST_INPUT]), kind, number)
