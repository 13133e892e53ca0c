"""Scripts of whole epochs, for `large_scripts.py`: every key deals, all is acknowledged, the logs stand in blocks from the midpoint on, and each ceremony succeeds."""
import hashlib

FIELD = 65_521
ME = 1
ACK, LOG, ROUND = 1, 2, 3


def be32(number):
    return number.to_bytes(4, "big")


def be64(number):
    return number.to_bytes(8, "big")


def sha(*parts):
    return hashlib.sha256(b"".join(parts)).digest()


def mark(key, domain, content):
    return sha(be32(key), bytes([domain]), content)[:8]


def weights(points):
    """What interpolates at zero from these points."""
    found = {}
    for one in points:
        weight = 1
        for other in points:
            if other != one:
                weight = weight * other % FIELD * pow(other - one, FIELD - 2, FIELD) % FIELD
        found[one] = weight
    return found


class Epoch:
    """An epoch's round, in which keys 1 up to so many deal to themselves: what they deal, acknowledge and log, and the output that follows."""

    def __init__(self, tools, number, keys, output, polynomial):
        self.tools, self.number, self.keys, self.polynomial = tools, number, keys, polynomial
        members = tools.set_bytes(keys)
        self.bytes = b"\x00" + tools.uint(number) + b"\x01" + output + b"\x00\x00" + members + members

    def dealt(self, dealer, seed):
        """The public half that a dealer deals, and its value at each key's point."""
        drawn = [int.from_bytes(sha(seed, be32(i))[:2], "big") % FIELD for i in range(len(self.polynomial))]
        public = [self.tools.value(self.polynomial, dealer), *drawn[1:]]
        return public, [self.tools.value(public, key) for key in self.keys]

    def ack(self, player, dealer, public):
        return mark(player, ACK, self.bytes + be32(dealer) + self.tools.polynomial_bytes(public))

    def log(self, dealer, public):
        """The payload with a dealer's log, which everybody has acknowledged."""
        entries = b"".join(b"\x00" + self.ack(key, dealer, public) for key in self.keys)
        log = self.tools.polynomial_bytes(public) + self.tools.uint(len(self.keys)) + entries
        return (b"\x00" + be32(dealer) + log + mark(dealer, LOG, self.bytes + log)).hex()

    def output(self, publics):
        """The polynomial that the first quorum of these make, and the bytes of its output."""
        chosen = sorted(publics)[:self.tools.quorum(len(self.keys))]
        by = weights(chosen)
        polynomial = [sum(by[key] * publics[key][i] for key in chosen) % FIELD for i in range(len(self.polynomial))]
        return polynomial, output_bytes(self.tools, self.keys, polynomial, mark(0, ROUND, self.bytes))


def output_bytes(tools, keys, polynomial, summary):
    members = tools.set_bytes(keys)
    return summary + b"\x00" + tools.uint(len(keys)) + tools.polynomial_bytes(polynomial) + members + members + tools.set_bytes(())


def info(tools, epoch, keys, output, failed=False):
    members = tools.set_bytes(keys)
    return (bytes([1, failed]) + tools.uint(epoch) + output + members + members).hex()


def whole(tools, size, dealers, requests, failing=0):
    """So many epochs, each in a life of its own. Behind the last log come so many requests for the next info, each fed the blocks down to the midpoint.

    Then so many failing ones: nobody deals but this node, and nobody acknowledges what it offers behind each block below the midpoint.
    """
    keys = tuple(range(1, dealers + 1))
    half = dealers + 2
    count = 2 * half
    named = [f"players {epoch} {' '.join(map(str, keys))}" for epoch in range(2, size + failing + 2)]
    polynomial = [int.from_bytes(sha(be64(7), b"\x01", be32(i))[:2], "big") % FIELD for i in range(tools.quorum(dealers))]
    output = output_bytes(tools, keys, polynomial, bytes(8))
    blocks, lives, asked = [f"block 0 - 0 {info(tools, 0, keys, output)}"], [], 0
    for number in range(size + failing):
        failed = number >= size
        epoch = Epoch(tools, number, keys, output, polynomial)
        dealt = {key: epoch.dealt(key, sha(be32(key), be64(number))) for key in keys if key != ME and not failed}
        logs = {key: epoch.log(key, public) for key, (public, _) in dealt.items()}
        own, _ = epoch.dealt(ME, sha(be64(9), be64(number)))
        peers = [f"peer {key} {(bytes(1) + tools.polynomial_bytes(public) + privates[ME - 1].to_bytes(2, 'big')).hex()}" for key, (public, privates) in dealt.items()]
        peers += [f"peer {key} 01{epoch.ack(key, ME, own).hex()}" for key in keys if key != ME and number > 0 and not failed]
        if not failed:
            polynomial, output = epoch.output({key: public for key, (public, _) in dealt.items()})
        first = number * count
        events = []
        for at in range(count):
            height, dealer = first + at, at - half + 2
            if height > 0:
                payload = info(tools, number + 1, keys, output, failed) if at == count - 1 else logs.get(dealer, "-")
                blocks.append(f"block {height} {height - 1} 0 {payload}")
            events.append(f"final {height}")
            if at == 1:
                events += peers
            if at == count - 2:
                for _ in range(requests):
                    asked += 1
                    events += [f"info {asked}", *(f"feed {asked} {fed}" for fed in range(height, first + half - 1, -1)), "work"]
        begins = [f"processed {first - 1}", f"held {first - 1}"] if number else ["held 0"]
        lives += ["life 9", *begins, *events, "stop 0"]
    config = tools.config(dealers, count)
    return tools.text([*config, *named, *blocks, *lives])
