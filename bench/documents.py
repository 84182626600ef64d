"""The documents that are measured, made from a seed: the same octets on every machine."""

import functools

MOST_DOCUMENT = 1_048_576
MOST_LISTED = 16
MOST_ATTRIBUTES = 64
MOST_LAYOUTS = 64
MOST_BOOK = 32_768

KIND_LAYOUT, KIND_ROW, KIND_END = 1, 2, 3
UNSTATED = 0xFFFFFFFF
END_SIZE = 16

WIDTHS = {
    0x21: 4, 0x22: 4, 0x23: 8, 0x24: 8, 0x25: 4, 0x26: 8,
    0x2A: 1, 0x2B: 1, 0x2C: 2, 0x2D: 2,
}
HEX_BINARY, STRING, BOOLEAN = 0x27, 0x28, 0x29
NUMBERS = sorted(WIDTHS)
ALL_TYPES = sorted([*NUMBERS, HEX_BINARY, STRING, BOOLEAN])


class Random:
    """SplitMix64, so that a seed means the same in every version of Python."""

    def __init__(self, seed):
        self.state = seed

    def word(self):
        self.state = (self.state + 0x9E3779B97F4A7C15) % 2**64
        z = self.state
        z = (z ^ (z >> 30)) * 0xBF58476D1CE4E5B9 % 2**64
        z = (z ^ (z >> 27)) * 0x94D049BB133111EB % 2**64
        return z ^ (z >> 31)

    def below(self, limit):
        return self.word() % limit

    def pick(self, choices):
        return choices[self.below(len(choices))]

    def octets(self, size):
        words = (self.word().to_bytes(8, "big") for _ in range((size + 7) // 8))
        return b"".join(words)[:size]

    def shuffled(self, items):
        items = list(items)
        for i in range(len(items) - 1, 0, -1):
            j = self.below(i + 1)
            items[i], items[j] = items[j], items[i]
        return items


class Image:
    """Octets of a document, with the places that damage aims at."""

    def __init__(self):
        self.octets = bytearray()
        self.numbers = []  # every field of four octets that is no value
        self.texts = []  # the lengths of what must be UTF-8
        self.booleans = []
        self.elements = []

    def number(self, value):
        self.numbers.append(len(self.octets))
        self.octets += value.to_bytes(4, "big")

    def time(self, milliseconds):
        self.octets += milliseconds.to_bytes(8, "big", signed=True)

    def led(self, octets):
        self.number(len(octets))
        self.octets += octets

    def text(self, octets):
        self.texts.append(len(self.octets))
        self.led(octets)

    def kind(self, kind):
        self.elements.append((len(self.octets), kind))
        self.number(kind)


class Layout:
    def __init__(self, number, name, attributes):
        self.number = number
        self.name = name
        self.attributes = attributes  # pairs of a name and a type

    def size(self):
        return 12 + len(self.name) + sum(8 + len(name) for name, _ in self.attributes)


def put_header(image, random, namespaces=2, services=1):
    image.number(4)
    image.text(b"recorder.example")
    image.time(1_000_000_000_000)
    image.text(b"http://records.example/ns")
    image.number(namespaces)
    for n in range(namespaces):
        image.text(b"http://records.example/ns/%d" % n)
        image.text(b"n%d" % n)
    image.number(services)
    for n in range(services):
        image.text(b"http://records.example/service/%d.xsd" % n)
    image.led(random.octets(16))
    image.number(0xFFFFFFFF)


def put_layout(image, layout):
    image.kind(KIND_LAYOUT)
    image.number(layout.number)
    image.text(layout.name)
    image.number(len(layout.attributes))
    for name, kind in layout.attributes:
        image.text(name)
        image.number(kind)


def basic_of(kind):
    """The basic type, whatever a derived type's mark says."""
    return kind & 0xFF


# Octets as ASCII that can be printed, so that a string has the length that chance gave it.
PRINTABLE = bytes(0x20 + octet % 95 for octet in range(256))

# Names and streets, of each script.
LATIN = ["José Núñez", "Zoë Müller", "Łukasz Dąbrowski", "Françoise Lefèvre", "Åsa Sjöström", "Jiří Dvořák",
         "Calle de Alcalá", "Königstraße", "Rue de l’Église", "Náměstí Míru", "Øster Allé", "Via dell’Università"]
CYRILLIC = ["Анна Иванова", "Дмитрий Соколов", "Олександр Шевченко", "Ђорђе Петровић", "Невский проспект", "улица Мира",
            "вулиця Хрещатик", "площадь Победы", "Цветни трг", "бульвар Победителей"]
CHINESE = ["王小明", "李娜", "张伟", "欧阳修文", "北京市朝阳区", "上海市南京东路", "广州市天河区中山大道", "成都市春熙路", "人民路", "建国门外大街"]
SCRIPTS = [LATIN, CYRILLIC, CHINESE]


def printable(random, size):
    return random.octets(size).translate(PRINTABLE)


def words(random, size):
    """Words of one script, as many whole characters as that many octets hold."""
    script = random.pick(SCRIPTS)
    text = b""
    while len(text) < size:
        text += random.pick(script).encode() + b" "
    return text[:size].decode(errors="ignore").encode()


def put_value(image, kind, random, longest, text):
    kind = basic_of(kind)
    if kind == HEX_BINARY:
        image.led(random.octets(random.below(longest + 1)))
    elif kind == STRING:
        image.text(text(random, random.below(longest + 1)))
    elif kind == BOOLEAN:
        image.booleans.append(len(image.octets))
        image.octets.append(random.below(2))
    else:
        image.octets += random.octets(WIDTHS[kind])


def put_row(image, layout, random, longest, text=printable):
    """A row of which half, by chance, state their length."""
    image.kind(KIND_ROW)
    image.number(layout.number)
    at_length = len(image.octets)
    image.number(UNSTATED)
    for _, kind in layout.attributes:
        put_value(image, kind, random, longest, text)
    if random.below(2):
        length = len(image.octets) - at_length - 4
        image.octets[at_length:at_length + 4] = length.to_bytes(4, "big")


def put_end(image, rows):
    image.kind(KIND_END)
    image.number(rows)
    image.time(1_000_086_400_000)


def row_size(layout, longest):
    """The most octets that a row can take."""
    return 12 + sum(WIDTHS.get(basic_of(kind), 4 + longest) for _, kind in layout.attributes)


def document(layouts, size, seed, longest=0, text=printable):
    """Header, layouts, rows of each layout in turn as far as `size` octets surely hold them, end; strings are such texts."""
    random = Random(seed)
    image = Image()
    put_header(image, random)
    for layout in layouts:
        put_layout(image, layout)
    rows = 0
    while len(image.octets) + row_size(layouts[rows % len(layouts)], longest) + END_SIZE <= size:
        put_row(image, layouts[rows % len(layouts)], random, longest, text)
        rows += 1
    put_end(image, rows)
    return image


@functools.cache
def short(size, seed=1):
    """One layout of three numbers, and short rows."""
    return document([Layout(1, b"Short", [(b"octets", 0x22), (b"port", 0x2D), (b"class", 0x2A)])], size, seed)


@functools.cache
def wide(size, seed=2):
    """One layout of 40 numbers of all widths, in no order."""
    kinds = Random(seed).shuffled(NUMBERS * 4)
    return document([Layout(2, b"Wide", [(b"n%d" % i, kind) for i, kind in enumerate(kinds)])], size, seed)


@functools.cache
def strings(size, seed=3):
    """One layout of six strings and two numbers; all is ASCII."""
    kinds = [0x24, STRING, STRING, STRING, 0x22, STRING, STRING, STRING]
    return document([Layout(3, b"Strings", [(b"f%d" % i, kind) for i, kind in enumerate(kinds)])], size, seed, 32)


@functools.cache
def letters(size, seed=8):
    """One layout like that of `strings`; the strings are words in Latin with accents, Cyrillic and Chinese letters."""
    fields = {"número": 0x24, "имя": STRING, "улица": STRING, "Straße": STRING, "номер": 0x22, "姓名": STRING, "街道": STRING, "città": STRING}
    return document([Layout(8, "Größe".encode(), [(name.encode(), kind) for name, kind in fields.items()])], size, seed, 32, words)


@functools.cache
def many(size, seed=4, count=MOST_LAYOUTS):
    """
    As many layouts of as many attributes as the book holds, or the first of them, used in turn.
    With names of no octets a layout takes 12 octets and 8 for each attribute,
    so that 64 layouts of 62 and 63 attributes fill the book's 32,768 exactly.
    Every fourth has the same types, so that any 4 stand for all.
    """
    random = Random(seed)
    mixes = [[(b"", random.pick(ALL_TYPES)) for _ in range(63)] for _ in range(4)]
    layouts = [Layout(1000 + i, b"", mixes[i % 4][:62 + i % 2]) for i in range(MOST_LAYOUTS)]
    assert sum(layout.size() for layout in layouts) == MOST_BOOK
    return document(layouts[:count], size, seed, 8)


def few(size):
    """A sixteenth of those layouts."""
    return many(size, count=MOST_LAYOUTS // 16)


@functools.cache
def texts(size, seed=6):
    """As many layouts of 62 strings, used in turn: more than our checks have plans for."""
    return document([Layout(1000 + i, b"", [(b"", STRING)] * 62) for i in range(MOST_LAYOUTS)], size, seed, 8)


SHAPES = {"short": short, "wide": wide, "strings": strings, "many": many, "letters": letters}

# What is counted only where it is named.
NAMED = {**SHAPES, "texts": texts}

# What stands for a shape in a sixteenth of a document: the same shape, with a sixteenth of its layouts where it has many.
SIXTEENTHS = {**NAMED, "many": few}

SMALL = MOST_DOCUMENT // 16


def small(shapes=SHAPES):
    """The documents of 64 KiB: their shape, what of it, and their octets."""
    for shape in shapes:
        yield shape, "small", bytes(SIXTEENTHS[shape](SMALL).octets)


def measured(shapes=SHAPES):
    """
    Every measured document of these shapes, in the same form. Large and small ones; each without its rows;
    and a small one with all of many layouts, of which half is layouts.
    """
    yield from small(shapes)
    for shape in shapes:
        yield shape, "large", bytes(NAMED[shape](MOST_DOCUMENT).octets)
        yield shape, "large bare", bytes(NAMED[shape](0).octets)
        yield shape, "small bare", bytes(SIXTEENTHS[shape](0).octets)
    if "many" in shapes:
        yield "many", "crowded", bytes(many(SMALL).octets)
