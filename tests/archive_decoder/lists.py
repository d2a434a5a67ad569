"""Lists of calls on a book just opened, with the archive written now and then: books that calls made."""
import archive
import books
import script
from archive import number
from script import OPENED

TOKEN = 5  # of the opening


def intent(rng):
    """A payment of coins that are coins, with readable runs mostly."""
    spends = []
    for _ in range(rng.choice((0, 1, 1, 2))):
        coin = books.hash32(rng) + books.hash32(rng) + archive.amount_atom(books.number(rng))
        outputs = [{"puzzle hash": books.hash32(rng), "amount": books.number(rng)} for _ in range(rng.choice((0, 1, 2)))]
        spends.append({"coin": coin, "digest": books.hash32(rng), "outputs": outputs if rng.random() < 0.9 else None})
    fee = rng.choice((books.fee_intent(rng), {"kind": 2, "target": books.hash32(rng), "amount": rng.randrange(1000)}))
    return {"id": None, "bundle": spends, "expiry": rng.choice((None, rng.randrange(100))), "fee intent": fee, "trigger": 0, "goal": 0}


class List:
    """Makes a list of calls. Tokens and ids are guessed from how much was queued, so some calls are stale or refused."""

    def __init__(self, rng):
        self.rng = rng
        self.intents = [intent(rng) for _ in range(rng.choice((1, 2, 3, 4)))]
        self.waiting = 0
        self.issued = 0

    def token(self):
        return number(TOKEN + max(0, self.issued - 1 - self.rng.choice((0, 0, 0, 1, 2))))

    def ids(self):
        return script.ids(self.rng.sample(range(1, 6), self.rng.randrange(4)))

    def queue(self):
        self.waiting += 1
        one = dict(self.rng.choice(self.intents))
        if self.rng.random() < 0.1:
            one.update(self.rng.choice(({"expiry": 7}, {"id": 1}, {"goal": 1})))
        return script.queue(one)

    def drain(self):
        self.issued += self.waiting
        self.waiting = 0
        return b"\x05"

    def finalise(self):
        source = self.rng.choice((0, 1, 1, 2, 3))
        joined = books.bundle(self.rng)[:2] if source == 1 else []
        return b"\x06" + self.token() + bytes([source]) + script.bundle_cells(joined)

    def chain(self):
        made = [coin for one in self.intents for coin in archive.output_coins(one["bundle"])]
        spent = [archive.sha256(spend["coin"]) for one in self.intents for spend in one["bundle"]]
        chosen = lambda items: self.rng.sample(items, self.rng.choice((0, 0, min(1, len(items)))))
        return b"\x14" + script.coin_list(chosen(made)) + script.run(b"".join(chosen(spent))) + bytes([self.rng.randrange(2)]) + self.ids()

    def others(self):
        rng = self.rng
        self.waiting += 1
        return rng.choice(
            (
                lambda: b"\x02" + self.ids() + bytes([rng.randrange(4)]),
                lambda: b"\x03",
                lambda: b"\x04" + number(rng.randrange(1, 4)) + bytes([rng.randrange(4), rng.randrange(2)]),
                lambda: b"\x09" + self.token(),
                lambda: b"\x0a" + self.token(),
                lambda: b"\x0b" + self.token(),
                lambda: b"\x0c" + script.ids([rng.randrange(1, 6)]),
                lambda: b"\x0d" + number(rng.randrange(9)),
                lambda: b"\x0e",
                lambda: b"\x11" + number(rng.randrange(90, 93)),
                lambda: b"\x12" + number(rng.randrange(90, 93)),
                lambda: b"\x17" + self.ids(),
                lambda: b"\x17" + self.ids(),
                lambda: rng.choice((b"\x19", b"\x18")),
            )
        )()

    def calls(self, count):
        yield script.read(OPENED)
        kinds = [self.queue] * 4 + [self.drain] * 4 + [self.finalise] * 3 + [self.others] * 4 + [self.chain]
        kinds += [lambda: b"\x08" + self.token()] * 2
        yield self.queue()
        yield self.drain()
        for n in range(count):
            yield self.rng.choice(kinds)()
            if n % 6 == 5:
                yield script.write(12000)
                yield script.summary()
                yield from map(script.look, range(1, 5))
