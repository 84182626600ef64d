"""Octets that are well-formed UTF-8 at its borders, and octets that are not UTF-8."""

# The first and last character of each form of the grammar in RFC 3629, a byte order mark, and what is no character.
GOOD = [chr(number).encode() for number in (
    0x00, 0x41, 0x7F, 0x80, 0x7FF, 0x800, 0xFFF, 0x1000, 0xCFFF, 0xD000, 0xD7FF, 0xE000, 0xFEFF, 0xFFFD, 0xFFFE, 0xFFFF,
    0x10000, 0x3FFFF, 0x40000, 0xFFFFF, 0x100000, 0x10FFFF)]

FAULTS = [bytes.fromhex(octets) for octets in (
    # tails that nothing leads
    "80", "BF", "C280 80",
    # longer forms than a character needs
    "C080", "C1BF", "E08080", "E09FBF", "F0808080", "F08FBFBF",
    # surrogates, alone and as a pair
    "EDA080", "EDBFBF", "EDA0BD EDB880",
    # past the last character, and first octets of no form
    "F4908080", "F4BFBFBF", "F5808080", "F7BFBFBF", "F888808080", "FC8480808080", "FE", "FF",
    # cut short
    "C2", "DF", "E0A0", "E180", "ED9F", "EFBF", "F090", "F09080", "F1", "F3BFBF", "F48F", "F48FBF",
    # interrupted
    "C241", "E18041", "E141", "F0908041", "F18041", "C2C280", "E1E18080", "F0F0908080",
    # an old eight-bit code
    "4A6F73E9")]

PIECES = [bytes.fromhex(octets) for octets in (
    "C3A9", "E69DB1", "F09F9880", "80", "FF", "C3", "E69D", "F09F98", "EDA080", "F4908080")]


def at_every_place(most):
    """Characters and faults behind and before so many letters of ASCII."""
    for piece in PIECES:
        for before in range(most + 1):
            for after in (0, 1, 7, most):
                yield b"a" * before + piece + b"z" * after
