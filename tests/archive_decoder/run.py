#!/usr/bin/env python3
"""Holds archive.py, a decoder written from docs/ARCHIVE.md, against the page, the recorded lists, the driver and the library.

    run.py [DRIVER [SEED [LIBRARY]]]      (target/bin/tool_book_driver, 1, target/lib/libsubmission_book.so)
"""
import collections
import ctypes
import pathlib
import random
import re
import sys

sys.dont_write_bytecode = True
ROOT = pathlib.Path(__file__).resolve().parents[2]
import archive
import books
import lists
import script
from script import LOOK, READ, SUMMARY, WRITE


def decoded(data):
    """What the decoder answers: 0, or 13 with the place; and the row of the page's table."""
    try:
        book = archive.decode(data)
    except archive.Refused as refused:
        return 13, refused.place, refused.row
    assert archive.encode(book) == data, "decoded and written again, it is another string: " + data.hex()
    return 0, None, None


def expect(what, got, wanted):
    if got != wanted:
        sys.exit("archive decoder: %s: %r, and should be %r" % (what, got, wanted))


# ---- the page
def page_example():
    """The bytes of the page's worked example, from its table of offsets."""
    text = (ROOT / "docs/ARCHIVE.md").read_text(encoding="utf-8")
    data = b""
    for offset, value, times in re.findall(r"^\| (\d+) \| `([0-9a-f]+)(?: × (\d+))?` \|", text, re.M):
        expect("offset in the page's table", len(data), int(offset))
        data += bytes.fromhex(value) * int(times or 1)
    return text, data


def check_page():
    text, data = page_example()
    example = archive.decode(data)
    tx = example["retained"][0]
    for what, digest in (
        ("archive", archive.sha256(data)),
        ("variant fingerprint", archive.variant_fingerprint(tx["base bundle"])),
        ("intent fingerprint", archive.intent_fingerprint(tx["base bundle"], tx["expiry"], tx["fee intent"])),
    ):
        expect("the page has the example's " + what, "`%s`" % digest.hex() in text, True)
    change = lambda at, value: data[:at] + bytes([value]) + data[at + 1 :]
    damages = ((data[:100], 69), (change(213, 7), 213), (change(34, 6), 27), (data + b"\0", 385))
    for wrong, place in damages:
        expect("a damage that the page names", decoded(wrong)[:2], (13, place))
    return data


# ---- archives that were recorded or are written by the driver
def check_look(op, last, answer, data):
    """What a look or a summary says of the book of this archive."""
    book = archive.decode(data)
    wanted = script.summed(book) if op == SUMMARY else script.looked(book, int.from_bytes(last, "big"))
    expect("call %02x %s on %s" % (op, last.hex(), data.hex()), answer.value, wanted)


def check_answers(played, seen=None):
    """Each archive that was read or written: the decoder's answer, its digest; and what looks say of it. Answers the archives."""
    found = []
    for (op, last, _), answer in played:
        if op in (LOOK, SUMMARY) and found and answer.digest == archive.sha256(found[-1]):
            check_look(op, last, answer, found[-1])
            if seen is not None:
                seen[op] += 1
        elif op == READ:
            refusal, place, _ = decoded(last)
            expect("reading " + last.hex(), (refusal, place), (answer.refusal, answer.place))
            if refusal == 0:
                expect("digest of " + last.hex(), answer.digest, archive.sha256(last))
                found.append(last)
        elif op == WRITE and answer.refusal == 0:
            expect("a written archive " + answer.written.hex(), decoded(answer.written)[0], 0)
            expect("digest of a written archive", answer.digest, archive.sha256(answer.written))
            expect("bytes behind a written archive", set(answer.behind) - {script.FILLED}, set())
            found.append(answer.written)
    return found


def recorded():
    found = []
    for path in sorted((ROOT / "tests/recorded").glob("*.in")):
        made = script.calls(path.read_bytes())
        found += check_answers(zip(made, script.answers(made, path.with_suffix(".out").read_bytes())))
    return found


# ---- books that calls made: what the page says of them
def check_called(data, seen):
    book = archive.decode(data)
    for tx in book["retained"]:
        base, fee, intent = tx["base bundle"], tx["fee bundle"], tx["fee intent"]
        expect("intent fingerprint", tx["intent fingerprint"], archive.intent_fingerprint(base, tx["expiry"], intent))
        known = [archive.variant_fingerprint(base)] + ([archive.variant_fingerprint(fee["bundle"])] if fee else [])
        slots = [tx[slot] for slot in ("live", "set aside") if tx[slot]]
        prints = [tx["acknowledged"]] + [slot[part] for slot in slots for part in ("drained", "finalised")]
        expect("variant fingerprints that are no bundle's", [one for one in prints if one and one not in known], [])
        expect("mark, fee bundle, fee intent", (tx["durable mark"], bool(fee), intent["kind"] == 2), [(0, False, True), (1, False, False), (2, True, True)][tx["durable mark"]])
        expect("applied fee", fee and fee["applied fee"], fee and intent["amount"])
        expect("tokens from the opening one on", [slot["token"] for slot in slots if slot["token"] < lists.TOKEN], [])
        expect("id below the next", tx["id"] < book["next id"], True)
        seen["submissions"] += 1
        for name in ("live", "set aside", "fee bundle", "acknowledged", "expiry"):
            seen[name] += tx[name] is not None
        for name, value in (("InputSpent", 1), ("Landed", 2)):
            seen[name] += tx["chain"] == value
    for name in ("queue", "retirements", "rollback height", "replayed"):
        seen[name] += bool(book[name])


def called(driver, rng, count):
    text = b"".join(call for _ in range(count) for call in lists.List(rng).calls(24))
    seen = collections.Counter()
    found = [data for data in check_answers(script.play(driver, b"\0" * 16 + text), seen) if data != script.OPENED]
    for data in found:
        check_called(data, seen)
    missing = [name for name in "live,set aside,fee bundle,acknowledged,expiry,InputSpent,Landed,queue,retirements,rollback height,replayed".split(",") if not seen[name]]
    expect("parts that no list of calls has made", missing, [])
    return found, seen["submissions"], seen[LOOK] + seen[SUMMARY]


def check_parent(driver):
    """The coin of an output has its spend's coin id as parent: the book lands on that coin and on no other."""
    spend = {"coin": b"any coin", "digest": b"\1" * 32, "outputs": [{"puzzle hash": b"\2" * 32, "amount": 128}]}
    payment = {"id": None, "bundle": [spend], "expiry": None, "fee intent": {"kind": 0}, "trigger": 0, "goal": 0}
    made = archive.output_coins([spend])[0]
    expect("coin that an output makes", made, archive.sha256(b"any coin") + b"\2" * 32 + b"\0\x80")
    for coin, chain in ((made, 2), (b"any coin".ljust(32) + made[32:], 0), (made[:-2] + b"\x80", 0)):
        report = b"\x14" + script.coin_list([coin]) + script.run(b"") + b"\0" + script.ids([])
        played = script.play(driver, b"\0" * 8 + archive.number(1) + script.queue(payment) + b"\x05" + report + script.write(2000))
        expect("chain after a report of " + coin.hex(), archive.decode(check_answers(played)[0])["retained"][0]["chain"], chain)


# ---- strings of every kind, read by both
def strings(rng, example, found):
    largest = archive.encode(books.largest())
    sound = [books.sound(rng) for _ in range(250)]
    whole = [archive.encode(book) for book in sound]
    small = sorted((data for data in set(found) if 200 < len(data) < 900), key=len)
    made = [b"", script.OPENED, largest] + whole
    made += [archive.encode(books.broken(rng, book)) for book in sound for _ in range(12)]
    made += [archive.encode(books.broken(rng, books.broken(rng, book))) for book in sound for _ in range(4)]
    made += books.all_cuts(example) + books.all_changes(example)
    for data in rng.sample(small, 2):
        made += books.all_cuts(data) + books.all_changes(data)
    made += [books.damaged(rng, rng.choice(found)) for _ in range(2000)]
    made += [books.damaged(rng, rng.choice(whole)) for _ in range(1000)]
    made += [books.damaged(rng, largest) for _ in range(30)]
    return made


def compared(driver, made):
    answers = script.play(driver, b"\0" * 16 + b"".join(script.read(data) for data in made))
    expect("calls that the driver answered", len(answers), len(made))
    rows = collections.Counter()
    for data, (_, answer) in zip(made, answers):
        refusal, place, row = decoded(data)
        expect("reading " + data.hex(), (refusal, place), (answer.refusal, answer.place))
        if refusal == 0:
            expect("digest of " + data.hex(), answer.digest, archive.sha256(data))
        rows[row] += 1
    expect("rows of the page's table that came up less than 20 times", [row for row in archive.ROWS if rows[row] < 20], [])
    return rows


def compared_with_library(path, made):
    """The same strings through the shared library: a book is its archive behind 8 bytes with its length."""
    read = ctypes.CDLL(path).submission_book_read
    read.argtypes = [ctypes.c_char_p, ctypes.c_size_t] * 2 + [ctypes.POINTER(ctypes.c_uint64)]
    read.restype = ctypes.c_uint8
    size = 57702
    book = ctypes.create_string_buffer(size)
    for data in made:
        place = ctypes.c_uint64(size)
        refusal = read(book, size, data, len(data), ctypes.byref(place))
        expect("the library, reading " + data.hex(), (refusal, place.value if refusal == 13 else None), decoded(data)[:2])
        if refusal == 0:
            expect("the library's book of " + data.hex(), book.raw[: 8 + len(data)], archive.number(len(data)) + data)


def main():
    arguments = dict(enumerate(sys.argv))
    driver = arguments.get(1, str(ROOT / "target/bin/tool_book_driver"))
    rng = random.Random(int(arguments.get(2, 1)))
    library = arguments.get(3, str(ROOT / "target/lib/libsubmission_book.so"))
    example = check_page()
    found = recorded()
    check_parent(driver)
    made_by_calls, submissions, looks = called(driver, rng, 120)
    made = strings(rng, example, found + made_by_calls)
    rows = compared(driver, made)
    compared_with_library(library, made)
    print("archive decoder: %d recorded archives; %d of calls, the fingerprints of %d submissions recomputed, and %d looks;" % (len(found), len(made_by_calls), submissions, looks))
    print("    %d strings read as the driver and the library read them: %d archives, %s" % (len(made), rows[None], ", ".join("%d %s" % (rows[row], row) for row in archive.ROWS)))


if __name__ == "__main__":
    main()
