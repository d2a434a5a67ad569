#!/usr/bin/env python3
"""Reads and writes the archive of a submission book. Written from docs/ARCHIVE.md; it shares nothing with the code.

    archive.py FILE     prints the book, or the place at which FILE is refused
"""
import hashlib
import json
import sys


class Refused(Exception):
    """No archive: the offset of the first item that is wrong, and which row of the page's table says so."""

    def __init__(self, place, row):
        super().__init__(place, row)
        self.place = place
        self.row = row


# The rows of the table "When a string is no archive".
CUT, END, RANGE, ID_TWICE, TOKEN, UNREADABLE, RETIRED_TWICE, REPLAYED, LEFT_OVER = ROWS = (
    "cut inside an item",
    "ends before a one-byte item",
    "one-byte item out of range",
    "id of an earlier submission",
    "token not below the next or twice",
    "unreadable base bundle",
    "retired id twice",
    "replayed id not rising or not retained",
    "bytes left over",
)


def sha256(data):
    return hashlib.sha256(data).digest()


class Reader:
    def __init__(self, data):
        self.data = data
        self.at = 0

    def run(self, length):
        start = self.at
        if len(self.data) < start + length:
            raise Refused(start, CUT)
        self.at = start + length
        return self.data[start : self.at]

    def byte(self, most, least=0):
        start = self.at
        if start == len(self.data):
            raise Refused(start, END)
        value = self.data[start]
        if value < least or value > most:
            raise Refused(start, RANGE)
        self.at = start + 1
        return value

    def number(self):
        return int.from_bytes(self.run(8), "big")

    def hash(self):
        return self.run(32)

    def optional(self, part):
        return part() if self.byte(1) else None

    def many(self, most, part):
        return [part() for _ in range(self.byte(most))]

    # ---- parts
    def output(self):
        return {"puzzle hash": self.hash(), "amount": self.number()}

    def spend(self, base):
        spend = {"coin": self.run(self.byte(73)), "digest": self.hash(), "outputs": None}
        start = self.at
        if self.byte(1):
            spend["outputs"] = self.many(4, self.output)
        elif base:
            raise Refused(start, UNREADABLE)
        return spend

    def bundle(self, base=False):
        return self.many(4, lambda: self.spend(base))

    def fee_intent(self):
        kind = self.byte(2)
        return {"kind": kind, "target": self.hash(), "amount": self.number()} if kind == 2 else {"kind": kind}

    def fee_bundle(self):
        return {"bundle": self.bundle(), "applied fee": self.number()}

    def attempt(self, token):
        return {"token": token(), "goal": self.byte(1), "drained": self.hash(), "finalised": self.optional(self.hash)}

    def delivery(self):
        return {
            "id": self.optional(self.number),
            "bundle": self.bundle(),
            "expiry": self.optional(self.number),
            "fee intent": self.fee_intent(),
            "trigger": self.byte(3),
            "goal": self.byte(1),
        }

    def submission(self, new_id, token):
        attempt = lambda: self.attempt(token)
        return {
            "id": new_id(),
            "live": self.optional(attempt),
            "set aside": self.optional(attempt),
            "intent fingerprint": self.hash(),
            "base bundle": self.bundle(base=True),
            "fee bundle": self.optional(self.fee_bundle),
            "durable mark": self.byte(2),
            "fee intent": self.fee_intent(),
            "acknowledged": self.optional(self.hash),
            "chain": self.byte(2),
            "expiry": self.optional(self.number),
        }


def decode(data):
    """The book of an archive; raises Refused for any other bytes."""
    reader = Reader(data)
    reader.byte(2, least=2)
    book = {"next token": reader.number(), "next id": reader.number()}
    ids, tokens, retired, replayed = [], set(), [], []

    def checked(row, good):
        start = reader.at
        number = reader.number()
        if not good(number):
            raise Refused(start, row)
        return number

    def new_id():
        ids.append(checked(ID_TWICE, lambda n: n not in ids))
        return ids[-1]

    def token():
        number = checked(TOKEN, lambda n: n < book["next token"] and n not in tokens)
        tokens.add(number)
        return number

    def retirement():
        retired.append(checked(RETIRED_TWICE, lambda n: n not in retired))
        return retired[-1]

    def replay():
        replayed.append(checked(REPLAYED, lambda n: n in ids and (not replayed or n > replayed[-1])))
        return replayed[-1]

    book["retained"] = reader.many(16, lambda: reader.submission(new_id, token))
    book["queue"] = reader.many(16, reader.delivery)
    book["retirements"] = reader.many(64, retirement)
    book["rollback height"] = reader.optional(reader.number)
    book["replayed"] = reader.many(16, replay)
    if reader.at != len(data):
        raise Refused(reader.at, LEFT_OVER)
    return book


# ---- the other way. A book that is not sound is written too: that is how wrong strings are made.
def number(n):
    return n.to_bytes(8, "big")


def optional(part, value):
    return b"\0" if value is None else b"\1" + part(value)


def many(part, values):
    return bytes([len(values)]) + b"".join(part(value) for value in values)


def raw(data):
    return data


def output_bytes(output):
    return output["puzzle hash"] + number(output["amount"])


def spend_bytes(spend):
    run = b"\0" if spend["outputs"] is None else b"\1" + many(output_bytes, spend["outputs"])
    return bytes([len(spend["coin"])]) + spend["coin"] + spend["digest"] + run


def bundle_bytes(bundle):
    return many(spend_bytes, bundle)


def fee_intent_bytes(fee):
    return bytes([fee["kind"]]) + (fee["target"] + number(fee["amount"]) if fee["kind"] == 2 else b"")


def fee_bundle_bytes(fee):
    return bundle_bytes(fee["bundle"]) + number(fee["applied fee"])


def attempt_bytes(attempt):
    return number(attempt["token"]) + bytes([attempt["goal"]]) + attempt["drained"] + optional(raw, attempt["finalised"])


def submission_bytes(tx):
    return b"".join(
        (
            number(tx["id"]),
            optional(attempt_bytes, tx["live"]),
            optional(attempt_bytes, tx["set aside"]),
            tx["intent fingerprint"],
            bundle_bytes(tx["base bundle"]),
            optional(fee_bundle_bytes, tx["fee bundle"]),
            bytes([tx["durable mark"]]),
            fee_intent_bytes(tx["fee intent"]),
            optional(raw, tx["acknowledged"]),
            bytes([tx["chain"]]),
            optional(number, tx["expiry"]),
        )
    )


def delivery_bytes(entry):
    return b"".join(
        (
            optional(number, entry["id"]),
            bundle_bytes(entry["bundle"]),
            optional(number, entry["expiry"]),
            fee_intent_bytes(entry["fee intent"]),
            bytes([entry["trigger"], entry["goal"]]),
        )
    )


def encode(book):
    return b"".join(
        (
            b"\2" + number(book["next token"]) + number(book["next id"]),
            many(submission_bytes, book["retained"]),
            many(delivery_bytes, book["queue"]),
            many(number, book["retirements"]),
            optional(number, book["rollback height"]),
            many(number, book["replayed"]),
        )
    )


# ---- what the page says can be computed from an archive
def variant_fingerprint(bundle):
    return sha256(bundle_bytes(bundle))


def intent_fingerprint(bundle, expiry, fee):
    return sha256(bundle_bytes(bundle) + optional(number, expiry) + fee_intent_bytes(fee))


def amount_atom(amount):
    return amount.to_bytes(amount.bit_length() // 8 + 1, "big") if amount else b""


def output_coins(bundle):
    """The coins that a bundle makes."""
    return [sha256(spend["coin"]) + made["puzzle hash"] + amount_atom(made["amount"]) for spend in bundle for made in spend["outputs"] or []]


def main():
    with open(sys.argv[1], "rb") as file:
        data = file.read()
    try:
        print(json.dumps(decode(data), indent=1, default=bytes.hex))
    except Refused as refused:
        print("no archive: refused at", refused.place, "-", refused.row)
        sys.exit(1)


if __name__ == "__main__":
    main()
