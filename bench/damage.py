"""Documents to compare readers on: the measured ones, border cases, and damaged ones, all made from a seed."""
import characters
from documents import (ALL_TYPES, BOOLEAN, END_SIZE, HEX_BINARY, KIND_LAYOUT, KIND_ROW, MOST_ATTRIBUTES, MOST_DOCUMENT,
                       MOST_LAYOUTS, MOST_LISTED, NAMED, SHAPES, STRING, UNSTATED, Image, Layout, Random, document, many,
                       measured, put_end, put_header, put_layout, texts)

RECORDER = 4  # the place of the recorder's length


def mixed(size, seed=5):
    """Layouts of no attributes, of every type and of booleans, which the measured documents have no small mixture of."""
    layouts = [
        Layout(0, b"", []),
        Layout(0xFFFFFFFF, b"All", [(b"a", kind) for kind in ALL_TYPES]),
        Layout(7, b"Booleans", [(b"b", BOOLEAN), (b"s", 0x28), (b"d", 0x0900 | BOOLEAN)]),
    ]
    return document(layouts, size, seed, 12)


def crowded(size, strings, seed=7):
    """19 layouts of which 12 have plans, one of so many strings, whose plan fits up to 43, two short ones, and one without."""
    kinds = [[STRING] * 62] * 19 + [[STRING] * strings, [0x22, 0x2D, 0x2A], [BOOLEAN] * 3, [BOOLEAN] * 60]
    return document([Layout(i, b"", [(b"", kind) for kind in types]) for i, types in enumerate(kinds)], size, seed, 4)


def bases():
    """What is damaged: short documents, so that damage meets headers and layouts as often as rows."""
    small = {"short": 600, "wide": 1500, "strings": 1200, "letters": 1200}
    images = {shape: SHAPES[shape](size) for shape, size in small.items()}
    return {**images, "mixed": mixed(900), "many": many(36_000), "texts": texts(60_000), "crowded": crowded(20_000, 43)}


def number_at(octets, place):
    return int.from_bytes(octets[place:place + 4], "big")


def with_number(octets, place, number):
    return octets[:place] + (number % 2**32).to_bytes(4, "big") + octets[place + 4:]


def border_numbers(number, behind):
    """Numbers near what stands there, near every limit, and near the document's end; `behind` is what follows the field."""
    limits = [0, 1, 2, 3, 4, 15, 16, 17, 63, 64, 65, 0x20, 0x21, 0x2D, 0x2E]
    wide = [0x7FFFFFFF, 0x80000000, 0xFFFFFFFC, 0xFFFFFFFE, 0xFFFFFFFF]
    types = [number | 0x100, number | 0xFF00, number | 0x10000, number | 0x40000000, number | 0x80000000]
    return [number - 1, number + 1, behind - 1, behind, behind + 1, *limits, *wide, *types]


# Each damage takes an image's octets as bytes, the image with its places, and a source of chance.

def change_one(octets, _image, random):
    place = random.below(len(octets))
    return octets[:place] + random.octets(1) + octets[place + 1:]


def change_some(octets, image, random):
    for _ in range(2 + random.below(3)):
        octets = change_one(octets, image, random)
    return octets


def cut(octets, _image, random):
    return octets[:random.below(len(octets))]


def cut_at_field(octets, image, random):
    """Just before, inside or just behind a field of four octets."""
    return octets[:random.pick(image.numbers) + random.below(5)]


def grow(octets, _image, random):
    return octets + random.octets(1 + random.below(20))


def insert(octets, _image, random):
    place = random.below(len(octets))
    return octets[:place] + random.octets(1 + random.below(8)) + octets[place:]


def remove(octets, _image, random):
    place = random.below(len(octets))
    return octets[:place] + octets[place + 1 + random.below(8):]


def set_border(octets, image, random):
    place = random.pick(image.numbers)
    choices = border_numbers(number_at(octets, place), len(octets) - place - 4)
    return with_number(octets, place, random.pick(choices))


def set_boolean(octets, image, random):
    if not image.booleans:
        return set_border(octets, image, random)
    place = random.pick(image.booleans)
    return octets[:place] + bytes([random.pick([2, 3, 0x7F, 0x80, 0xFF])]) + octets[place + 1:]


def spoilt(octets, image, random):
    """A fault over some octets of a string, and the place of its length."""
    place = random.pick([place for place in image.texts if number_at(octets, place)])
    size = number_at(octets, place)
    fault = random.pick([fault for fault in characters.FAULTS if len(fault) <= size])
    start = place + 4 + random.pick([0, size - len(fault), random.below(size - len(fault) + 1)])
    return octets[:start] + fault + octets[start + len(fault):], place


def spoil(octets, image, random):
    return spoilt(octets, image, random)[0]


def spoil_and_cut(octets, image, random):
    """A bad string that is just whole, or lacks an octet or two."""
    octets, place = spoilt(octets, image, random)
    return octets[:place + 4 + number_at(octets, place) - random.below(3)]


def spoil_and_length(octets, image, random):
    """A bad string whose length is wrong too."""
    octets, place = spoilt(octets, image, random)
    behind = len(octets) - place - 4
    return with_number(octets, place, random.pick(border_numbers(number_at(octets, place), behind)))


def spoil_and_more(octets, image, random):
    """A bad string, and a fault somewhere before or behind it."""
    return random.pick([set_border, set_boolean, change_one, spoil])(spoil(octets, image, random), image, random)


def borders(image):
    """Where each element starts, with its kind and its end."""
    ends = [place for place, _ in image.elements[1:]] + [len(image.octets)]
    return [(place, end, kind) for (place, kind), end in zip(image.elements, ends)]


def repeat_layout(octets, image, random, change=lambda layout, random: layout):
    """A layout once more, before some element that comes behind it."""
    elements = borders(image)
    known = [i for i, (_, _, kind) in enumerate(elements) if kind == KIND_LAYOUT]
    i = random.pick(known)
    start, end, _ = elements[i]
    before = elements[i + 1 + random.below(len(elements) - i - 1)][0]
    return octets[:before] + change(octets[start:end], random) + octets[before:]


def repeat_changed(octets, image, random):
    def change(layout, random):
        place = 8 + random.below(len(layout) - 8)
        return layout[:place] + bytes([layout[place] ^ (1 << random.below(8))]) + layout[place + 1:]
    return repeat_layout(octets, image, random, change)


def repeat_renumbered(octets, image, random):
    return repeat_layout(octets, image, random, lambda layout, random: with_number(layout, 4, random.below(2**32)))


def repeat_badly_named(octets, image, random):
    def change(layout, random):
        name = random.pick(characters.FAULTS)
        return with_number(layout, 8, len(name))[:12] + name + layout[12 + number_at(layout, 8):]
    return repeat_layout(octets, image, random, change)


def repeat_element(octets, image, random):
    start, end, _ = random.pick(borders(image))
    return octets[:end] + octets[start:end] + octets[end:]


DAMAGES = [change_one, change_some, cut, cut_at_field, grow, insert, remove, set_border, set_border, set_border,
           set_boolean, set_boolean, repeat_layout, repeat_changed, repeat_renumbered, repeat_element, spoil, spoil,
           spoil_and_cut, spoil_and_length, spoil_and_more, repeat_badly_named]


def damaged(count, seed):
    """So many damaged documents; each depends on the seed and its own number alone."""
    images = list(bases().items())
    for n in range(count):
        random = Random(seed * 2**32 + n)
        name, image = random.pick(images)
        damage = random.pick(DAMAGES)
        yield f"{name} {damage.__name__} {n}", damage(bytes(image.octets), image, random)


def damaged_large(seed):
    """Each damage done once to a document of each shape at its full size."""
    for shape, make in SHAPES.items():
        image = make(MOST_DOCUMENT)
        for n, damage in enumerate(DAMAGES):
            yield f"{shape} {damage.__name__} large {n}", damage(bytes(image.octets), image, Random(seed + n))


def lengthened(octets, size):
    """A document made so long by the recorder's name."""
    more = size - len(octets)
    length = number_at(octets, RECORDER)
    return with_number(octets, RECORDER, length + more)[:RECORDER + 4] + bytes(more) + octets[RECORDER + 4:]


def listed(namespaces, services):
    """A document with lists so long, and no elements but the end."""
    image = Image()
    put_header(image, Random(1), namespaces, services)
    put_end(image, 0)
    return bytes(image.octets)


def with_layouts(layouts):
    return bytes(document(layouts, 0, 1).octets)


def plain_layouts(count):
    return with_layouts([Layout(n, b"", []) for n in range(count)])


def one_layout(count):
    return with_layouts([Layout(1, b"", [(b"", 0x21)] * count)])


def shorter_again():
    """A layout again with fewer attributes, so that the document ends before as many octets as the first one had."""
    image = Image()
    put_header(image, Random(1))
    for count in (9, 1):
        put_layout(image, Layout(1, b"", [(b"", 0x21)] * count))
    return bytes(image.octets)


def book_over():
    """The book filled to its last octet, and one octet more in the last layout's type name."""
    image = many(0)
    octets = bytes(image.octets)
    place = [place for place, kind in image.elements if kind == KIND_LAYOUT][-1] + 8
    return with_number(octets, place, 1)[:place + 4] + b"A" + octets[place + 4:]


SLOTS = ["recorder", "default namespace", "URI", "short name", "service", "type name", "attribute name", "value", "value of a derived type"]


def spelt(slot, octets, stated=False, truth=1):
    """A document in which one of the strings is these octets; the id and a hexBinary are none that a string could be."""
    text = {name: b"x" for name in SLOTS} | {slot: octets}
    image = Image()
    image.number(4)
    image.text(text["recorder"])
    image.time(0)
    image.text(text["default namespace"])
    image.number(1)
    image.text(text["URI"])
    image.text(text["short name"])
    image.number(1)
    image.text(text["service"])
    image.led(b"\xff" * 16)
    image.number(0xFFFFFFFF)
    attributes = [(text["attribute name"], STRING), (b"", BOOLEAN), (b"", HEX_BINARY), (b"", 0x0500 | STRING)]
    put_layout(image, Layout(7, text["type name"], attributes))
    image.kind(KIND_ROW)
    image.number(7)
    image.number(4 + len(text["value"]) + 1 + 6 + 4 + len(text["value of a derived type"]) if stated else UNSTATED)
    image.text(text["value"])
    image.booleans.append(len(image.octets))
    image.octets.append(truth)
    image.led(b"\xff\xc3")
    image.text(text["value of a derived type"])
    put_end(image, 1)
    return image


def string_cases():
    """Characters and faults in each string; then each bad one with a fault before or behind it."""
    for slot in SLOTS:
        for octets in [b"", *characters.GOOD, *characters.FAULTS]:
            for stated in (False, True):
                yield f"{slot} {octets.hex()}", bytes(spelt(slot, octets, stated).octets)
    for slot in SLOTS:
        for stated in (False, True):
            yield from faults_about(slot, b"x\xe9", stated)
    for octets in characters.at_every_place(40):
        for slot in ("recorder", "value"):
            yield f"{slot} {octets.hex()}", bytes(spelt(slot, octets).octets)


def faults_about(slot, bad, stated):
    image = spelt(slot, bad, stated)
    octets = bytes(image.octets)
    place = image.texts[SLOTS.index(slot)]
    for end in range(place + 3, place + 4 + len(bad) + 6):
        yield f"bad {slot}, cut at {end}", octets[:end]
    for field in image.numbers:
        for number in border_numbers(number_at(octets, field), len(octets) - field - 4):
            yield f"bad {slot}, {number % 2**32} at {field}", with_number(octets, field, number)
    yield f"bad {slot} and boolean", bytes(spelt(slot, bad, stated, 2).octets)


def bad_names():
    """Bad names under a known number and in a full book, where their refusal comes first."""
    for bad in characters.FAULTS:
        for attributes in ([], [(bad, 0x21)]):
            name = b"" if attributes else bad
            yield f"a known number, name {bad.hex()}", with_layouts([Layout(1, b"", []), Layout(1, name, attributes)])
            full = [Layout(n, b"", []) for n in range(MOST_LAYOUTS)]
            yield f"a full book, name {bad.hex()}", with_layouts([*full, Layout(99, name, attributes)])


def border_cases():
    full = bytes(SHAPES["short"](MOST_DOCUMENT - 100).octets)
    yield "no octets", b""
    yield "the longest", lengthened(full, MOST_DOCUMENT)
    yield "one too long", lengthened(full, MOST_DOCUMENT + 1)
    yield "too long and of another version", with_number(lengthened(full, MOST_DOCUMENT + 1), 0, 3)
    for over in (0, 1):
        yield f"namespaces over by {over}", listed(MOST_LISTED + over, 0)
        yield f"services over by {over}", listed(0, MOST_LISTED + over)
        yield f"attributes over by {over}", one_layout(MOST_ATTRIBUTES + over)
        yield f"layouts over by {over}", plain_layouts(MOST_LAYOUTS + over)
    bare = listed(0, 0)
    yield "another version", with_number(bare, 0, 3)
    yield "an id of another length", with_number(bare, len(bare) - END_SIZE - 24, 15)
    yield "a header not followed by its mark", with_number(bare, len(bare) - END_SIZE - 4, 0)
    for strings in range(42, 46):
        yield f"a plan of {strings} strings more", bytes(crowded(30_000, strings).octets)
    yield from string_cases()
    yield from bad_names()
    yield "a book too full", book_over()
    yield "a layout again, shorter", shorter_again()


def all_cases(count, seed):
    """A name and the octets of every document to compare on."""
    for shape, size, octets in measured(NAMED):
        yield f"{shape} {size}", octets
    yield from border_cases()
    yield from damaged(count, seed)
    yield from damaged_large(seed)
