"""Worked values of crates/dkg_replay/data/values.cases: bytes that are made by hand, of which the model says what reading them gives.

A row is a kind, the limit and the mode's version that the reader is given, a name, and the bytes in hexadecimal digits.
"""

# Four keys as a set; an output of four players who share 5 + x + 2x², which all four dealt; an info of success, epoch 0, with that output and the same players
# now and next; their four addresses; dealer 2's signed log of 15 + 7x + x², which all four acknowledged; and a block with that info.
FOUR = "0400000001000000020000000300000004"
OUTPUT = "0000000000000000" + "0004" + "03000500010002" + FOUR + FOUR + "00"
INFO = "0000" + OUTPUT + FOUR + FOUR
ADDRESSES = FOUR + "0400000001000100000000020002000000000300030000000004000400"
MARKS = ("134884486f937d35", "3cbab4ad250559bb", "62ec9b64ac9e3c60", "35d25a6f31f9a000")
LOG = "00000002" + "03000f00070001" + "04" + "".join("00" + mark for mark in MARKS) + "808fc628f83b18b8"
BLOCK = "01ac020000000302" + bytes(range(32)).hex() + "09" * 32 + "0f" + "01" + "01" + INFO

# A kind, the reader's limits, a value's bytes, and edits of these: a name, a place, the byte there, and the length of what is read.
EDITED = [
    ("info", 4, 0, INFO, [
        ("a failure", 0, 1, 88),
        ("an outcome that is unknown", 0, 2, 88),
        ("an epoch that ends in a group of zero", 1, 128, 88),
        ("a mode that is newer", 10, 1, 88),
        ("an output of four players and three in all", 11, 3, 88),
        ("five players", 54, 5, 88),
        ("a player twice", 58, 2, 88),
        ("three next players and a key behind them", 71, 3, 88),
        ("a byte too few", 87, 9, 87),
        ("a number of coefficients that ends in a group of zero", 12, 128, 88),
    ]),
    ("payload", 4, 0, "01" + INFO, [
        ("an info", 0, 1, 89),
        ("a payload that is unknown", 0, 2, 89),
        ("no byte", 0, 1, 0),
        ("an info of an outcome that is unknown", 1, 2, 89),
        ("an info of an epoch that ends in a group of zero", 2, 128, 89),
        ("an info of five players", 55, 5, 89),
        ("an info of an output of four players and three in all", 12, 3, 89),
        ("an info of three next players and a key behind them", 72, 3, 89),
    ]),
    ("payload", 4, 0, "00" + LOG, [
        ("a log", 0, 0, 57),
        ("a log of another dealer", 4, 9, 57),
        ("a log as an info", 0, 1, 57),
        ("a log of no coefficient", 5, 0, 57),
        ("a log of five coefficients", 5, 5, 57),
        ("a log of five entries", 12, 5, 57),
        ("a log of three entries and one behind its mark", 12, 3, 57),
        ("a log of an entry that is unknown", 13, 2, 57),
        ("a log of an acknowledgement as a private half", 13, 1, 57),
        ("a log of a byte too few", 55, 0, 56),
    ]),
    ("block", 4, 0, BLOCK, [
        ("a block", 0, 1, 163),
        ("a block of another epoch", 0, 2, 163),
        ("a view that ends in a group of zero", 2, 0, 163),
        ("a flag that is unknown", 73, 2, 163),
        ("no payload and one behind", 73, 0, 163),
        ("a block of a payload that is unknown", 74, 2, 163),
        ("a block of five players", 129, 5, 163),
        ("a block of an output of four players and three in all", 86, 3, 163),
        ("a block of a player twice", 133, 2, 163),
        ("a block of a byte too few", 162, 0, 162),
    ]),
    ("addressed-info", 4, 0, INFO + ADDRESSES, [
        ("four addresses", 88, 4, 134),
        ("addresses of three keys", 88, 3, 134),
        ("an address of a stranger", 104, 5, 134),
        ("an address of an unknown form", 106, 2, 134),
    ]),
    ("output", 4, 0, OUTPUT, [
        ("an output", 0, 0, 52),
        ("another summary", 0, 7, 52),
        ("a mode of roots for a reader that knows none", 8, 1, 52),
        ("a mode that is unknown", 8, 2, 52),
        ("four players and three in all", 9, 3, 52),
        ("a number of coefficients that ends in a group of zero", 10, 133, 52),
        ("five dealers", 17, 5, 52),
        ("a dealer twice", 25, 1, 52),
        ("three players and four in all", 34, 3, 52),
        ("a revealed key that is missing", 51, 1, 52),
    ]),
]

# Rows of whole values.
WHOLE = [
    ("output", 4, 1, "a mode of roots", "0000000000000000" + "0101" + "010005" + "00" + "0100000007" + "0100000007"),
    ("output", 4, 1, "two coefficients and one player", "0000000000000000" + "0001" + "0200050001" + "00" + "0100000007" + "00"),
    ("output", 4, 1, "no player", "0000000000000000" + "0000" + "010005" + "00" + "00" + "00"),
    ("output", 4, 1, "a revealed key that is no player", "0000000000000000" + "0001" + "010005" + "00" + "0100000007" + "0100000008"),
    ("output", 4, 1, "a coefficient past the prime", "0000000000000000" + "0001" + "01fff1" + "00" + "0100000007" + "00"),
    ("output", 4, 1, "a byte behind an output", "0000000000000000" + "0001" + "010005" + "00" + "0100000007" + "00" + "00"),
    ("epoch", 1, 0, "zero", "00"),
    ("epoch", 1, 0, "the greatest number of one group", "7f"),
    ("epoch", 1, 0, "two groups", "ac02"),
    ("epoch", 1, 0, "the greatest number of all", "ffffffffffffffffff01"),
    ("epoch", 1, 0, "a last group of zero", "8000"),
    ("epoch", 1, 0, "a tenth group past the width", "ffffffffffffffffff02"),
    ("epoch", 1, 0, "a tenth group that is not the last", "80808080808080808080"),
    ("epoch", 1, 0, "no last group", "80"),
    ("epoch", 1, 0, "a byte behind a number", "ac0200"),
    ("set", 2, 0, "no key", "00"),
    ("set", 2, 0, "two keys", "02" + "00000001" + "ffffffff"),
    ("set", 2, 0, "keys that fall", "02" + "00000002" + "00000001"),
    ("set", 2, 0, "a key twice", "02" + "00000002" + "00000002"),
    ("set", 2, 0, "three keys where two are the most", "03" + "00000001"),
    ("set", 2, 0, "a number of keys that ends in a group of zero", "8000"),
    ("set", 2, 0, "three bytes of a key", "01" + "000000"),
    ("set", 2, 0, "a byte behind a set", "00" + "00"),
    ("map", 2, 0, "an element for a key", "01" + "00000005" + "01" + "fff0"),
    ("map", 2, 0, "a number of keys that ends in a group of zero", "8100"),
    ("map", 2, 0, "a number of values that ends in a group of zero", "01" + "00000005" + "8100"),
    ("map", 2, 0, "an element past the prime", "01" + "00000005" + "01" + "fff1"),
    ("map", 2, 0, "two values for a key", "01" + "00000005" + "02"),
    ("map", 2, 0, "no key where one is the least", "00" + "00"),
    ("map", 2, 0, "three keys where two are the most", "03"),
    ("map", 2, 0, "a key twice", "02" + "00000005" + "00000005"),
    ("map", 2, 0, "a byte of an element", "01" + "00000005" + "01" + "07"),
    ("map", 2, 0, "a byte behind a map", "01" + "00000005" + "01" + "0007" + "00"),
    ("public", 4, 0, "the greatest coefficient", "01" + "fff0"),
    ("public", 4, 0, "no byte", ""),
    ("public", 4, 0, "a byte of a coefficient", "01" + "00"),
    ("public", 4, 0, "a number of coefficients that ends in a group of zero", "8000"),
    ("public", 4, 0, "no coefficient", "00"),
    ("public", 4, 0, "five coefficients where four are the most", "05"),
    ("public", 4, 0, "a coefficient past the prime", "01" + "fff1"),
    ("public", 4, 0, "a byte behind a public half", "01" + "0005" + "00"),
    ("log", 4, 0, "a private half that is revealed", "010005" + "01" + "010005"),
    ("log", 4, 0, "no entry", "010005" + "00"),
    ("log", 4, 0, "no number of entries", "010005"),
    ("log", 4, 0, "no coefficient", "00" + "00"),
    ("log", 4, 0, "five entries where four are the most", "010005" + "05"),
    ("log", 4, 0, "an entry that is unknown", "010005" + "01" + "020005"),
    ("log", 4, 0, "seven bytes of an acknowledgement", "010005" + "01" + "0001020304050607"),
    ("log", 4, 0, "a private half past the prime", "010005" + "01" + "01fff1"),
    ("log", 4, 0, "a byte behind a log", "010005" + "00" + "09"),
    ("outcome", 1, 0, "success", "00"),
    ("outcome", 1, 0, "failure", "01"),
    ("outcome", 1, 0, "an outcome that is unknown", "02"),
    ("message", 4, 0, "a dealing", "00" + "03000f00070001" + "0017"),
    ("message", 4, 0, "an acknowledgement", "01" + "0102030405060708"),
]


def edited(data, place, byte, length):
    """The bytes with another one at a place, cut to a length."""
    data = bytes.fromhex(data)
    return (data[:place] + bytes([byte]) + data[place + 1:])[:length].hex()


def worked_values():
    """The rows of values that edits make, and those of whole ones."""
    rows = [
        (kind, limit, version, name, edited(data, *edit))
        for kind, limit, version, data, edits in EDITED
        for name, *edit in edits
    ]
    return rows + WHOLE
