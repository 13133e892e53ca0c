"""Large scripts of each kind that is measured. A kind has four sizes, a factor of four apart, in the unit that it names.

    bench/large_scripts.py KIND SIZE

writes one to standard output.
"""
import hashlib
import os
import sys

sys.path.insert(0, os.path.dirname(os.path.abspath(__file__)))
import whole_scripts

FIELD = 65_521
FOUR = (1, 2, 3, 4)
ME = 1
SEVEN = (1, 2, 3, 4, 5, 6, 7)


def uint(number):
    """Groups of seven bits, the lowest first."""
    out = bytearray()
    while number > 127:
        out.append(number & 127 | 128)
        number >>= 7
    return bytes(out + bytes([number]))


def quorum(members):
    return members - (members - 1) // 3


def value(polynomial, point):
    total = 0
    for coefficient in reversed(polynomial):
        total = (total * point + coefficient) % FIELD
    return total


def polynomial_bytes(polynomial):
    return uint(len(polynomial)) + b"".join(c.to_bytes(2, "big") for c in polynomial)


def set_bytes(keys):
    return uint(len(keys)) + b"".join(k.to_bytes(4, "big") for k in keys)


def info_of(dealers, players, polynomial, epoch=0, outcome=0):
    """The payload of the block that begins an epoch: an info of that epoch whose output these dealers share by the polynomial.

    The outcome is 0 for the success of the epoch's ceremony, and 1 for its failure.
    """
    sharing = b"\x00" + uint(len(dealers)) + polynomial_bytes(polynomial)
    output = bytes(8) + sharing + set_bytes(dealers) + set_bytes(dealers) + set_bytes(())
    return (bytes([1, outcome]) + uint(epoch) + output + set_bytes(players) + set_bytes(players)).hex()


def info(dealers):
    """The same for few players, by the polynomial 5 + x."""
    return info_of(dealers, FOUR, [5, 1] + [0] * (quorum(len(dealers)) - 2))


def dealing(point, salt, wrong):
    """A dealing of the dealer at this point to the player at point 1, whose private half is off by `wrong`."""
    polynomial = [(5 + point) % FIELD] + [(salt * 7919 + i * 104_729 + point) % FIELD for i in (1, 2)]
    return dealing_of(polynomial, wrong)


def dealing_of(polynomial, wrong):
    private = (value(polynomial, 1) + wrong) % FIELD
    return (b"\x00" + polynomial_bytes(polynomial) + private.to_bytes(2, "big")).hex()


def config(limit, blocks):
    return ["dkg 1", f"me {ME}", f"blocks {blocks}", f"limit {limit}", "mode 0 0", "space -"]


def header(dealers, blocks):
    return [*config(max(4, len(dealers)), blocks), f"block 0 - 0 {info(dealers)}"]


def text(lines):
    return ("\n".join(lines) + "\nend\n").encode()


def life(events):
    return ["life 9", "held 0", *events, "stop 0"]


def repeats(size):
    return text(header(FOUR, 8) + life([f"peer 2 {dealing(2, 1, 0)}"] * size))


def refusals(size):
    return text(header(FOUR, 8) + life([f"peer 2 {dealing(2, i, 1)}" for i in range(size)]))


def dealers(size):
    many = tuple(range(1, size + 1))
    return text(header(many, 8) + life([f"peer {k} {dealing(k, 1, 0)}" for k in many if k != ME]) + life([]))


def restarts(size):
    many = tuple(range(1, 126))
    first = life([f"peer {k} {dealing(k, 1, 0)}" for k in many if k != ME])
    return text(header(many, 8) + first + life([]) * size)


def early_blocks(size):
    """So many blocks after block 0, each with the one before as its parent, all below the midpoint."""
    return header(FOUR, 2 * size + 4) + [f"block {i} {i - 1} 0 -" for i in range(1, size + 1)]


def blocks(size):
    return text(early_blocks(size) + life([f"final {i}" for i in range(size + 1)]))


def mixed(size):
    message = f"peer 2 {dealing(2, 1, 0)}"
    events = [line for i in range(1, size + 1) for line in (f"final {i}", message)]
    return text(early_blocks(size) + life(["final 0", message, *events]))


def element(*parts):
    """An element of the field, drawn from bytes."""
    return int.from_bytes(hashlib.sha256(b"".join(parts)).digest()[:2], "big") % FIELD


def made_dealing(number, output, dealer):
    """The dealing to key 1 that dealer makes in the generated script of this number: its share of the output, by a seed."""
    seed = hashlib.sha256(number.to_bytes(8, "big") + dealer.to_bytes(4, "big") + bytes(8)).digest()
    return dealing_of([value(output, dealer)] + [element(seed, i.to_bytes(4, "big")) for i in range(1, 5)], 0)


def made(size):
    """What the generated script of number 2 has of epoch 0 below its midpoint, in two lives, so many times.

    The first life is delivered the blocks 0 to 15, and behind block 1 the dealings of keys 2 to 7. The second goes on to block 31, and behind
    block 16 key 2 sends its dealing again. From the second time on, the dealings are restored.
    """
    output = [element((2).to_bytes(8, "big"), b"\x01", i.to_bytes(4, "big")) for i in range(5)]
    peers = [f"peer {k} {made_dealing(2, output, k)}" for k in SEVEN if k != ME]
    finals = [f"final {i}" for i in range(32)]
    first = ["life 2", "held 0", *finals[:2], *peers, *finals[2:16], "stop 0"]
    second = ["life 2", "processed 15", "held 0 15", finals[16], peers[0], *finals[17:], "stop 0"]
    lines = [*config(7, 64), f"block 0 - 0 {info_of(SEVEN, SEVEN, output)}", *(f"block {i} {i - 1} 0 -" for i in range(1, 32))]
    return text(lines + (first + second) * size)


def epochs(size, members, life_of, outcome=0):
    """So many epochs of eight blocks, each with a life: `life_of` has the epoch, and the dealings of all participants but this node."""
    keys = tuple(range(1, members + 1))
    output = [(7919 * i + 5) % FIELD for i in range(quorum(members))]
    drawn = [[element(k.to_bytes(32, "big"), i.to_bytes(4, "big")) for i in range(quorum(members))] for k in keys]
    peers = [f"peer {k} {dealing_of([value(output, k), *drawn[k - 1][1:]], 0)}" for k in keys if k != ME]
    lines = [*config(members, 8), f"block 0 - 0 {info_of(keys, keys, output)}"]
    for height in range(1, 8 * size + 8):
        payload = info_of(keys, keys, output, height // 8 + 1, outcome) if height % 8 == 7 else "-"
        lines.append(f"block {height} {height - 1} 0 {payload}")
    return text(lines + [line for epoch in range(size) for line in life_of(epoch, peers)])


def early_life(epoch, events):
    """A life that begins at the block before its epoch, and is delivered the blocks below the midpoint."""
    begins = [f"processed {8 * epoch - 1}", f"held {8 * epoch - 1}"] if epoch else ["held 0"]
    return ["life 9", *begins, *events, *(f"final {8 * epoch + i}" for i in range(4)), "stop 0"]


def following_life(epoch, peers):
    """A life that holds nothing: it follows its epoch, takes the next one over at the last block, and hears the dealings there."""
    return ["life 9", *(f"final {8 * epoch + i}" for i in range(8)), *peers, *(f"final {8 * epoch + i}" for i in range(8, 12)), "stop 0"]


def lives(size):
    return epochs(size, len(FOUR), early_life)


def quiet(size):
    return epochs(size, len(FOUR), lambda epoch, _: early_life(epoch, []))


def failures(size):
    """The same of ceremonies that failed, so that each life seeks a share of an epoch below, and finds none."""
    return epochs(size, len(FOUR), lambda epoch, _: early_life(epoch, []), 1)


def follows(size):
    return epochs(size, len(FOUR), following_life)


def members(size):
    return epochs(size, 100, early_life)


def whole(size):
    """So many epochs of 100 dealers, whose logs blocks carry."""
    return whole_scripts.whole(sys.modules[__name__], size, 100, 0)


def asked(size):
    """The same with five requests an epoch for what the last block must carry."""
    return whole_scripts.whole(sys.modules[__name__], size, 100, 5)


def offers(size):
    """So many epochs in which the node deals, and offers its dealing to three others behind each of six blocks, since nobody acknowledges it."""
    return whole_scripts.whole(sys.modules[__name__], 1, 4, 0, size)


def waiting(size):
    """So many requests that wait while the node deals, each of which is fed one block."""
    events = [*(f"info {i}" for i in range(size)), *(f"feed {i} 6" for i in range(size)), *(f"final {i}" for i in range(5))]
    return text(header(FOUR, 8) + [f"block {i} {i - 1} 0 -" for i in range(1, 8)] + life(events))


# Its name, how a script of a size is made, the least of the four sizes, and the exponent of growth that is still well.
KINDS = [
    ("repeats", repeats, 8_000, 1.05),
    ("refusals", refusals, 8_000, 1.05),
    ("dealers", dealers, 320, 1.05),
    ("restarts", restarts, 10, 1.05),
    ("blocks", blocks, 4_000, 1.05),
    ("mixed", mixed, 3_000, 1.05),
    ("make", made, 50, 1.05),
    ("lives", lives, 125, 1.05),
    ("quiet", quiet, 125, 1.05),
    ("failures", failures, 125, 1.05),
    ("follows", follows, 125, 1.05),
    ("members", members, 5, 1.05),
    ("whole", whole, 1, 1.05),
    ("asked", asked, 1, 1.05),
    ("offers", offers, 60, 1.05),
    ("waiting", waiting, 500, 1.05),
]


def main():
    made = [make for name, make, _, _ in KINDS if name == sys.argv[1]]
    sys.stdout.buffer.write(made[0](int(sys.argv[2])))


if __name__ == "__main__":
    main()
