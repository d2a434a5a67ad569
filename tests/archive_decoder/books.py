"""Books made by hand, sound and not, and damaged strings."""
import copy

import archive

LAST = 2**64 - 1


def hash32(rng):
    return rng.getrandbits(256).to_bytes(32, "big")


def number(rng):
    return rng.choice((0, 1, 255, 256, LAST, rng.getrandbits(64)))


def maybe(rng, part):
    return part(rng) if rng.random() < 0.5 else None


def bundle(rng, readable=False):
    def outputs():
        if not readable and rng.random() < 0.3:
            return None
        return [{"puzzle hash": hash32(rng), "amount": number(rng)} for _ in range(rng.choice((0, 1, 1, 2, 4)))]

    def coin():
        return bytes(rng.getrandbits(8) for _ in range(rng.choice((0, 1, 64, 73, rng.randrange(74)))))

    return [{"coin": coin(), "digest": hash32(rng), "outputs": outputs()} for _ in range(rng.choice((0, 1, 1, 2, 4)))]


def fee_intent(rng):
    return rng.choice(({"kind": 0}, {"kind": 1}, {"kind": 2, "target": hash32(rng), "amount": number(rng)}))


def delivery(rng):
    return {
        "id": maybe(rng, number),
        "bundle": bundle(rng),
        "expiry": maybe(rng, number),
        "fee intent": fee_intent(rng),
        "trigger": rng.randrange(4),
        "goal": rng.randrange(2),
    }


def sound(rng):
    """A sound book whose parts need not go together: what is not a rule is not kept."""
    size = rng.choice((0, 1, 1, 2, 2, 3, 3, 5, 16))
    ids = rng.sample(range(1, 40), size) if rng.random() < 0.8 else [LAST - n for n in range(size)]
    tokens = rng.sample(range(0, 60), 2 * size)

    def attempt(_):
        return {"token": tokens.pop(), "goal": rng.randrange(2), "drained": hash32(rng), "finalised": maybe(rng, hash32)}

    retained = [
        {
            "id": one,
            "live": maybe(rng, attempt),
            "set aside": maybe(rng, attempt),
            "intent fingerprint": hash32(rng),
            "base bundle": bundle(rng, readable=True),
            "fee bundle": maybe(rng, lambda _: {"bundle": bundle(rng), "applied fee": number(rng)}),
            "durable mark": rng.randrange(3),
            "fee intent": fee_intent(rng),
            "acknowledged": maybe(rng, hash32),
            "chain": rng.randrange(3),
            "expiry": maybe(rng, number),
        }
        for one in ids
    ]
    return {
        "next token": rng.choice((60, LAST)),
        "next id": number(rng),
        "retained": retained,
        "queue": [delivery(rng) for _ in range(rng.choice((0, 0, 1, 2, 16 if size < 3 else 3)))],
        "retirements": rng.sample(range(80), rng.choice((0, 1, 3, 64))),
        "rollback height": maybe(rng, number),
        "replayed": sorted(rng.sample(ids, rng.randrange(size + 1))),
    }


def largest():
    """Every count and every number as large as may be."""
    full = [{"puzzle hash": b"\xfc" * 32, "amount": LAST}] * 4
    spends = [{"coin": b"\xfe" * 73, "digest": b"\xfd" * 32, "outputs": full}] * 4
    fee = {"kind": 2, "target": b"\4" * 32, "amount": LAST}
    ids = [LAST - n for n in range(16)]
    attempt = lambda token: {"token": token, "goal": 1, "drained": b"\1" * 32, "finalised": b"\2" * 32}
    one = {"intent fingerprint": b"\3" * 32, "base bundle": spends, "fee bundle": {"bundle": spends, "applied fee": LAST}, "durable mark": 2}
    one.update({"fee intent": fee, "acknowledged": b"\5" * 32, "chain": 2, "expiry": LAST})
    entry = {"id": LAST, "bundle": spends, "expiry": LAST, "fee intent": fee, "trigger": 3, "goal": 1}
    return {
        "next token": LAST,
        "next id": LAST,
        "retained": [dict(one, id=n, live=attempt(LAST - 1 - 2 * k), **{"set aside": attempt(LAST - 2 - 2 * k)}) for k, n in enumerate(ids)],
        "queue": [entry] * 16,
        "retirements": [LAST - n for n in range(64)],
        "rollback height": LAST,
        "replayed": sorted(ids),
    }


# ---- books that break one rule
def slots(book):
    return [tx[slot] for tx in book["retained"] for slot in ("live", "set aside") if tx[slot]]


def bundles(book):
    return [tx["base bundle"] for tx in book["retained"]] + [entry["bundle"] for entry in book["queue"]]


def some(rng, items):
    return rng.choice([item for item in items if item] or [None])


def broken(rng, book):
    """A copy of a book in which one thing is changed, to something wrong as far as the book has room for it."""
    book = copy.deepcopy(book)
    retained, replayed = book["retained"], book["replayed"]
    entry = some(rng, retained + book["queue"])
    slot, spend = some(rng, slots(book)), some(rng, [spend for one in bundles(book) for spend in one])
    kind = rng.randrange(19)
    if kind == 0 and len(retained) > 1:
        retained[-1]["id"] = retained[rng.randrange(len(retained) - 1)]["id"]
    elif kind == 1 and slot:
        slot["token"] = book["next token"] + rng.randrange(min(2, LAST - book["next token"] + 1))
    elif kind == 2 and slot:
        slot["token"] = rng.choice(slots(book))["token"]
    elif kind == 3 and slot:
        book["next token"] = slot["token"]
    elif kind == 4 and spend:
        spend["outputs"] = None
    elif kind == 5 and book["retirements"]:
        book["retirements"].append(rng.choice(book["retirements"]))
    elif kind == 6 and replayed:
        replayed.insert(rng.randrange(len(replayed)), rng.choice(replayed))
    elif kind == 7 and replayed:
        replayed.reverse()
    elif kind == 8:
        replayed.append(rng.randrange(100))
    elif kind == 9 and spend:
        spend["coin"] = b"\x07" * rng.choice((74, 255))
    elif kind == 10 and spend:
        spend["outputs"] = [{"puzzle hash": b"\x08" * 32, "amount": 0}] * 5
    elif kind == 11 and entry:
        entry["fee intent"] = {"kind": rng.choice((3, 255))}
    elif kind == 12 and retained:
        entry = rng.choice(retained)
        entry[rng.choice(("durable mark", "chain"))] = rng.choice((3, 255))
    elif kind == 13 and book["queue"]:
        entry = rng.choice(book["queue"])
        entry.update(rng.choice(({"trigger": 4}, {"goal": 2})))
    elif kind == 14:
        book["retirements"] = list(range(rng.choice((65, 200))))
    elif kind == 15 and retained:
        book["retained"] = retained * (1 + 16 // len(retained))
    elif kind == 16 and book["queue"]:
        book["queue"] = book["queue"] * (1 + 16 // len(book["queue"]))
    elif kind == 17 and spend:
        one = next(one for one in bundles(book) if one)
        one.extend([spend] * (5 - len(one)))
    elif kind == 18 and slot:
        slot["goal"] = 2
    return book


def damaged(rng, data):
    """A copy of some bytes with one or two of them changed, cut off, put in, left out or added."""
    data = bytearray(data)
    for _ in range(rng.choice((1, 1, 2))):
        at = rng.randrange(len(data) + 1)
        kind = rng.randrange(8)
        if kind < 4 and at < len(data):
            data[at] = rng.choice((0, 1, 2, 3, 4, 5, 16, 17, 64, 65, 73, 74, 255, data[at] ^ (1 << rng.randrange(8))))
        elif kind == 4:
            del data[at:]
        elif kind == 5:
            data[at:at] = bytes([rng.choice((0, 1, 2, 255))]) * rng.choice((1, 8))
        elif kind == 6:
            del data[at : at + rng.choice((1, 8, 32))]
        else:
            data += bytes([rng.randrange(3)])
    return bytes(data)


def all_cuts(data):
    return [data[:n] for n in range(len(data))]


def all_changes(data):
    """Each byte in turn one higher, one lower, with its highest bit turned, and 2."""
    values = lambda byte: ((byte + 1) % 256, (byte - 1) % 256, byte ^ 128, 2)
    return [data[:n] + bytes([value]) + data[n + 1 :] for n in range(len(data)) for value in values(data[n])]


assert len(archive.encode(largest())) == 57694
