#!/usr/bin/env python3
"""The text that show_archive is to write of an archive, over the decoder of tests/archive_decoder. It shares nothing with the code.

usage: text.py FILE
"""
import os
import sys

sys.path.insert(0, os.path.join(os.path.dirname(os.path.abspath(__file__)), "..", "archive_decoder"))
from archive import amount_atom, decode, intent_fingerprint, sha256, variant_fingerprint  # noqa: E402

GOALS = ("EnsureBroadcast (to have the bundle broadcast)", "FeeUpgrade (to have a fee attached)")
TRIGGERS = (
    "Protocol (the protocol asked for it)",
    "FreshChain (a newer chain was seen)",
    "Rollback (the chain was rolled back)",
    "ProviderReadiness (the fee provider became ready)",
)
CHAIN = (
    "Active (neither landed nor an input spent)",
    "InputSpent (an input was spent, no output was seen)",
    "Landed (an output was seen on the chain)",
)
MARKS = (
    "Unresolved (the wallet is still to be asked for the fee)",
    "NotRequested (no fee is asked of the wallet)",
    "Attached (the wallet has added the fee)",
)
FEES = ("AlreadyPaid (the bundle pays its fee itself)", "NoFeeConfigured (no fee is to be paid)")
STATES = ("landed", "input spent", "acknowledged", "under way", "queued", "retained only")


def none(value):
    return "none" if value is None else value


# ---- parts
def coin_lines(coin):
    parent, puzzle, atom = coin[:32], coin[32:64], coin[64:]
    amount = int.from_bytes(atom, "big")
    if len(coin) >= 64 and amount < 2**64 and amount_atom(amount) == atom:
        yield f"      coin parent: {parent.hex()}"
        yield f"      coin puzzle hash: {puzzle.hex()}"
        yield f"      coin amount: {amount}"
    else:
        yield f"      coin bytes (not a parent, puzzle hash and amount): {coin.hex()}"
    yield f"      coin id: {sha256(coin).hex()}"


def bundle_lines(label, bundle):
    yield f"{label}, spends: {len(bundle)}"
    for i, spend in enumerate(bundle, 1):
        yield f"    spend {i}"
        yield from coin_lines(spend["coin"])
        yield f"      digest of puzzle, solution and signature: {spend['digest'].hex()}"
        if spend["outputs"] is None:
            yield "      run: unreadable"
            continue
        yield f"      run: readable, outputs: {len(spend['outputs'])}"
        for j, made in enumerate(spend["outputs"], 1):
            coin = sha256(spend["coin"]) + made["puzzle hash"] + amount_atom(made["amount"])
            yield f"        output {j} puzzle hash: {made['puzzle hash'].hex()}"
            yield f"          amount: {made['amount']}"
            yield f"          coin id: {sha256(coin).hex()}"


def fee_lines(fee):
    if fee["kind"] < 2:
        yield f"  fee intent: {FEES[fee['kind']]}"
    else:
        yield f"  fee intent: Attach, target {fee['target'].hex()}"
        yield f"    amount: {fee['amount']}"


def current(tx):
    return tx["fee bundle"]["bundle"] if tx["fee bundle"] else tx["base bundle"]


def agrees(stored, tx):
    base = stored == variant_fingerprint(tx["base bundle"])
    now = stored == variant_fingerprint(current(tx))
    if base and now:
        return "agrees with base bundle and current variant"
    if base:
        return "agrees with the base bundle"
    return "agrees with the current variant" if now else "DOES NOT AGREE with base bundle or current variant"


def optional_hash(stored, tx):
    return "no" if stored is None else f"yes, fingerprint {stored.hex()}, {agrees(stored, tx)}"


def attempt_lines(label, attempt, tx):
    if attempt is None:
        yield f"  {label}: none"
        return
    yield f"  {label}: token {attempt['token']}"
    yield f"    goal: {GOALS[attempt['goal']]}"
    yield f"    drained fingerprint: {attempt['drained'].hex()}, {agrees(attempt['drained'], tx)}"
    yield f"    finalised: {optional_hash(attempt['finalised'], tx)}"


def submission_lines(tx):
    intent = intent_fingerprint(tx["base bundle"], tx["expiry"], tx["fee intent"])
    word = "agrees" if intent == tx["intent fingerprint"] else "DOES NOT AGREE"
    yield f"  id: {tx['id']}"
    yield from attempt_lines("live attempt", tx["live"], tx)
    yield from attempt_lines("set-aside attempt", tx["set aside"], tx)
    yield f"  intent fingerprint: {tx['intent fingerprint'].hex()}, {word} with base bundle, expiry and fee intent"
    yield from bundle_lines("  base bundle", tx["base bundle"])
    if tx["fee bundle"]:
        yield from bundle_lines("  fee bundle", tx["fee bundle"]["bundle"])
        yield f"  applied fee: {tx['fee bundle']['applied fee']}"
        yield "  the fee bundle above is to be delivered"
    else:
        yield "  fee bundle: none"
    yield f"  durable fee state: {MARKS[tx['durable mark']]}"
    yield from fee_lines(tx["fee intent"])
    yield f"  acknowledged: {optional_hash(tx['acknowledged'], tx)}"
    yield f"  chain state: {CHAIN[tx['chain']]}"
    yield f"  expiry height: {none(tx['expiry'])}"


def delivery_lines(entry):
    yield f"  id: {'new' if entry['id'] is None else entry['id']}"
    yield from bundle_lines("  bundle", entry["bundle"])
    yield f"  expiry height: {none(entry['expiry'])}"
    yield from fee_lines(entry["fee intent"])
    yield f"  trigger: {TRIGGERS[entry['trigger']]}"
    yield f"  goal: {GOALS[entry['goal']]}"


# ---- payments
def intent(entry):
    return intent_fingerprint(entry["bundle"], entry["expiry"], entry["fee intent"])


def takes(tx, entry):
    return intent(entry) == tx["intent fingerprint"] if entry["id"] is None else entry["id"] == tx["id"]


def state(tx, queue):
    if tx["chain"]:
        return ("input spent", "landed")[tx["chain"] - 1]
    if tx["acknowledged"] == variant_fingerprint(current(tx)):
        return "acknowledged"
    if tx["live"]:
        return "under way"
    return "queued" if any(takes(tx, entry) for entry in queue) else "retained only"


def payment(number, bundle, word, fee):
    amount = sum(made["amount"] for spend in bundle for made in spend["outputs"] or [])
    partly = "" if all(spend["outputs"] is not None for spend in bundle) else " and what an unreadable run pays"
    return {"line": f"  id {none(number)}: amount out {amount}{partly}, {word}, fee {fee}", "amount": amount, "state": word, "fee": fee}


def payments(book):
    for tx in book["retained"]:
        fee = f"applied {tx['fee bundle']['applied fee']}" if tx["fee bundle"] else "open" if tx["durable mark"] == 0 else "none"
        yield payment(tx["id"], current(tx), state(tx, book["queue"]), fee)
    for i, entry in enumerate(book["queue"]):
        twice = entry["id"] is None and any(other["id"] is None and intent(other) == intent(entry) for other in book["queue"][i + 1 :])
        if not twice and not any(takes(tx, entry) for tx in book["retained"]):
            yield payment(entry["id"], entry["bundle"], "queued", "open" if entry["fee intent"]["kind"] == 2 else "none")


def payment_lines(book):
    made = list(payments(book))
    yield "payments"
    yield from [one["line"] for one in made]
    if not book["retained"] and not book["queue"]:
        yield "  none"
    yield ""
    yield "payments in all"
    for word in STATES:
        yield f"  {word}: {sum(one['state'] == word for one in made)}"
    yield f"  amount out in all: {sum(one['amount'] for one in made)}"
    yield f"  fees applied in all: {sum(int(one['fee'][8:]) for one in made if one['fee'].startswith('applied'))}"


# ---- the whole
def ids(numbers):
    return "  ids: " + (" ".join(map(str, numbers)) if numbers else "none")


def tokens(book):
    yield "tokens and their fates"
    for tx in book["retained"]:
        for slot, word in (("live", "live"), ("set aside", "set aside")):
            if tx[slot]:
                yield f"  token {tx[slot]['token']}: {word}, submission {tx['id']}"
    yield (
        "  all other tokens issued below the next token are gone (displaced or struck out; a book does not keep the two apart), "
        f"next token: {book['next token']}"
    )


def lines(data):
    book = decode(data)
    retained, queue = book["retained"], book["queue"]
    yield f"archive of a submission book, bytes: {len(data)}"
    yield f"SHA-256 of these bytes, to be kept beside the archive: {sha256(data).hex()}"
    yield ""
    yield from payment_lines(book)
    yield ""
    yield f"next attempt token: {book['next token']}"
    yield f"next submission id: {book['next id']}"
    yield ""
    yield "totals"
    yield f"  retained submissions: {len(retained)}"
    yield f"  live attempts: {sum(tx['live'] is not None for tx in retained)}"
    yield f"  set-aside attempts: {sum(tx['set aside'] is not None for tx in retained)}"
    yield f"  queue entries: {len(queue)}"
    for i, tx in enumerate(retained, 1):
        yield ""
        yield f"retained submission {i} of {len(retained)}"
        yield from submission_lines(tx)
    for i, entry in enumerate(queue, 1):
        yield ""
        yield f"queue entry {i} of {len(queue)}"
        yield from delivery_lines(entry)
    yield ""
    yield f"retired ids, number: {len(book['retirements'])}"
    yield ids(book["retirements"])
    yield ""
    yield f"rollback height: {none(book['rollback height'])}"
    yield f"replayed ids, number: {len(book['replayed'])}"
    yield ids(book["replayed"])
    yield ""
    yield from tokens(book)


if __name__ == "__main__":
    if len(sys.argv) != 2:
        sys.exit(__doc__)
    with open(sys.argv[1], "rb") as file:
        for line in lines(file.read()):
            print(line)
