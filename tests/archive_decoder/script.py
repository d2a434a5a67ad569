"""Call scripts and the driver's answers, by docs/DRIVER.md."""
import subprocess

import archive
from archive import Reader, number

OPENED = archive.encode({"next token": 5, "next id": 1, "retained": [], "queue": [], "retirements": [], "rollback height": None, "replayed": []})
FILLED = 0xA5  # each byte of a lent buffer, at first
WRITE, READ, LOOK, SUMMARY = 0x1B, 0x1C, 0x1E, 0x1F

# ---- arguments
def spend_cells(spend):
    outputs = spend["outputs"] or []
    cells = b"".join(archive.output_bytes(output) for output in outputs)
    return bytes([len(spend["coin"])]) + spend["coin"].ljust(73, b"\0") + spend["digest"] + bytes([spend["outputs"] is not None, len(outputs)]) + cells.ljust(160, b"\0")


def bundle_cells(bundle):
    return bytes([len(bundle)]) + b"".join(spend_cells(spend) for spend in bundle).ljust(4 * 268, b"\0")


def fee_intent_cells(fee):
    return archive.fee_intent_bytes(fee).ljust(41, b"\0")


def optional_cells(value):
    return b"\0" * 9 if value is None else b"\1" + number(value)


def ids(values):
    return len(values).to_bytes(2, "big") + b"".join(map(number, values))


def run(data):
    return len(data).to_bytes(4, "big") + data


def coin_list(coins):
    return run(len(coins).to_bytes(2, "big") + b"".join(bytes([len(coin)]) + coin for coin in coins))


def queue(delivery):
    parts = optional_cells(delivery["id"]), bundle_cells(delivery["bundle"]), optional_cells(delivery["expiry"]), fee_intent_cells(delivery["fee intent"])
    return b"\x01" + b"".join(parts) + bytes([delivery["trigger"], delivery["goal"]])


def write(size):
    return bytes([WRITE]) + size.to_bytes(4, "big")


def read(data):
    return bytes([READ]) + run(data)


def look(submission):
    return bytes([LOOK]) + number(submission)


def summary():
    return bytes([SUMMARY])


# ---- what follows an opcode: so many bytes; i: ids; r: run of bytes; l: length of a lent buffer
ARGUMENTS = {0x01: [9, 1073, 9, 41, 2], 0x02: ["i", 1], 0x04: [10], 0x06: [9, 1073], 0x0C: ["i"], 0x0F: ["r", "l"], 0x14: ["r", "r", 1, "i"]}
ARGUMENTS.update({0x15: ["r", "r"], 0x16: ["i", "r", "l"], 0x17: ["i"], WRITE: ["l"], READ: ["r"]})
ARGUMENTS.update({op: [8] for op in (0x07, 0x08, 0x09, 0x0A, 0x0B, 0x0D, 0x11, 0x12, 0x1A, LOOK)})
ARGUMENTS.update({op: [] for op in (0x03, 0x05, 0x0E, 0x10, 0x13, 0x18, 0x19, 0x1D, SUMMARY)})


def calls(script):
    """The calls of a script, each as opcode, last argument in bytes and length of the lent buffer; up to what ends the run."""
    reader = Reader(script)
    reader.run(16)
    found = []

    def length():
        n = int.from_bytes(reader.run(4), "big")
        if n > 65536:
            raise KeyError(n)
        return n

    try:
        while reader.at < len(script):
            op, last, lent = reader.run(1)[0], b"", 0
            for form in ARGUMENTS[op]:
                if form == "i":
                    reader.run(8 * int.from_bytes(reader.run(2), "big"))
                elif form == "r":
                    last = reader.run(length())
                elif form == "l":
                    lent = length()
                else:
                    last = reader.run(form)
            found.append((op, last, lent))
    except (archive.Refused, KeyError):
        pass
    return found


# ---- answers
def skip_drain(reader):
    for _ in range(reader.run(1)[0]):
        reader.run(16)
        reader.optional(reader.number)
        reader.run(1)
        reader.bundle()
        reader.optional(reader.number)
        reader.fee_intent()
    for _ in range(reader.run(1)[0]):
        reader.run(8)
        reader.optional(reader.number)
        reader.optional(reader.number)
        reader.run(33)


def skip_finalised(reader):
    if reader.byte(1):
        reader.bundle()
        reader.run(8 + 1 + 1 + 32 + 1)


def skip_ids(reader):
    reader.run(8 * reader.run(1)[0])


def skip_attempt(reader):
    reader.optional(lambda: reader.attempt(reader.number))


def skip_look(reader):
    if reader.byte(1):
        reader.run(3 + 8)
        for _ in range(3):
            reader.optional(reader.number)


def skip_summary(reader):
    reader.run(6 * 8)
    reader.optional(reader.number)


ANSWERS = {
    0x05: skip_drain,
    0x06: skip_finalised,
    0x07: lambda reader: reader.optional(reader.fee_intent),
    0x11: lambda reader: reader.byte(1),
    0x13: lambda reader: reader.optional(reader.number),
    0x1A: skip_attempt,
    0x1D: lambda reader: reader.byte(1, least=1),
    LOOK: skip_look,
    SUMMARY: skip_summary,
}
ANSWERS.update({op: skip_ids for op in (0x0C, 0x0E, 0x10, 0x15)})
ANSWERS.update({op: lambda reader: reader.byte(1) for op in (0x08, 0x09, 0x0A, 0x0B)})


# ---- what the looks must answer of a book
def optional_bytes(value):
    return b"\0" if value is None else b"\1" + number(value)


def looked(book, submission):
    found = [tx for tx in book["retained"] if tx["id"] == submission]
    if not found:
        return b"\0"
    tx = found[0]
    current = tx["fee bundle"] or {"bundle": tx["base bundle"], "applied fee": 0}
    acknowledged = tx["acknowledged"] == archive.variant_fingerprint(current["bundle"])
    tokens = [tx[slot] and tx[slot]["token"] for slot in ("live", "set aside")]
    marks = bytes([1, tx["chain"], acknowledged, tx["durable mark"]])
    return marks + number(current["applied fee"]) + b"".join(map(optional_bytes, [tx["expiry"]] + tokens))


def summed(book):
    numbers = [book["next token"], book["next id"]] + [len(book[name]) for name in ("retained", "queue", "retirements", "replayed")]
    return b"".join(map(number, numbers)) + optional_bytes(book["rollback height"])


class Answer:
    """What a call answered: refusal, place of a 13, the answer's bytes, bytes written into the lent buffer, digest of the book's archive."""

    def __init__(self, reader, op, lent):
        self.refusal = reader.run(1)[0]
        self.place = reader.number() if self.refusal == 13 else None
        length = None
        start = reader.at
        if self.refusal == 0:
            if op in (0x0F, 0x16, WRITE):
                length = int.from_bytes(reader.run(4), "big")
            elif op in ANSWERS:
                ANSWERS[op](reader)
        self.value = reader.data[start : reader.at]
        buffer = reader.run(lent)
        self.written = None if length is None else buffer[:length]
        self.behind = buffer[length or 0 :]
        self.digest = reader.run(32)


def answers(made, output):
    """The answers to the calls of a script, which must use up the output; an 'ff' at its end is passed over."""
    reader = Reader(output)
    found = [Answer(reader, op, lent) for op, _, lent in made]
    if output[reader.at :] not in (b"", b"\xff"):
        raise ValueError("the driver wrote %d bytes more than its calls answer" % (len(output) - reader.at))
    return found


def play(driver, script):
    """The calls of a script with what the driver answers."""
    done = subprocess.run([driver], input=script, stdout=subprocess.PIPE, check=True)
    made = calls(script)
    return list(zip(made, answers(made, done.stdout)))
