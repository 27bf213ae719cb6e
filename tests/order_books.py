"""The books of orders of both sides, by docs/REQUESTS.md, docs/REPORTS.md and "Equal books" of
docs/DEFINITIONS.md: what FIX 4.2 makes of what a client sent and took, and FIX 5.0 SP2 of what a
venue did. A report is a map from its tags to their values."""
from collections import namedtuple
from decimal import Decimal

AMOUNTS = {"38", "44", "99", "110", "111", "80", "32", "31", "151", "14", "6"}
PARTIES = {"3": "109", "1": "76", "4": "439"}
# A message: its number, its type, and its fields without the header but PossResend(97).
Message = namedtuple("Message", "number kind fields")


class Order:
    """An order of a book. Its values are those that were said last."""

    def __init__(self):
        self.ids = []  # each ClOrdID(11)
        self.values = {}  # by their tags
        self.phase = None
        self.seen = []  # each ExecID(17)
        self.executions = []

    def of_id(self, exec_id):
        """The execution that has this id, its own or that of a correction."""
        for execution in self.executions:
            if exec_id in execution["ids"]:
                return execution
        return None

    def state(self):
        """All that is known of the order."""
        return self.ids, self.values, self.phase, self.seen, self.executions


def change42(said):
    """What a report of FIX 4.2 does to the executions of its order."""
    if said["20"] == "0" and said["150"] in "12":
        return "trade"
    return {"2": "correct", "1": "bust", "3": "status"}.get(said["20"], "")


def change50(said):
    """What a report of FIX 5.0 SP2 does to the executions of its order."""
    by_type = {"F": "trade", "G": "correct", "H": "bust", "I": "status", "L": "status"}
    return by_type.get(said["150"], "")


def phase(said):
    """The phase of an order; one that was replaced works on as a new one."""
    return "0" if said["39"] == "5" else said["39"]


def step(book, said, change):
    """A book behind an execution report. One with PossResend(97) whose ExecID(17) was seen changes
    nothing; a status has no ExecID of its own."""
    order = book.setdefault(said["37"], Order())
    if change != "status" and said.get("97") == "Y" and said["17"] in order.seen:
        return
    if "11" in said and said["11"] not in order.ids:
        order.ids.append(said["11"])
    for tag in ("11", "38", "44", "151", "14", "6"):
        if tag in said:
            order.values[tag] = said[tag]
    order.phase = phase(said)
    if change != "status":
        order.seen.append(said["17"])
    about = order.of_id(said.get("19"))
    if change == "trade":
        order.executions.append({"ids": [said["17"]], "qty": said["32"], "price": said["31"],
                                 "live": True})
    elif change == "correct" and about:
        about["ids"].append(said["17"])
        about["qty"], about["price"] = said["32"], said["31"]
    elif change == "bust" and about:
        about["live"] = False


def step_cancel_reject(book, said):
    """A book behind a cancel reject, which makes no order."""
    if said["37"] in book:
        book[said["37"]].phase = phase(said)


def canonical(tag, value):
    """A value as one of its kind: an amount without needless zeros."""
    return Decimal(value).normalize() if tag in AMOUNTS else value


def sense42(message):
    """What a request of FIX 4.2 asks for."""
    said = dict(message.fields)
    if said.get("40") in ("5", "B"):
        said.pop("59", None)
    if "205" in said:
        said["205"] = int(said["205"])
    return message.kind, {tag: canonical(tag, value) for tag, value in said.items()}


def sense50(message):
    """What a request of FIX 5.0 SP2 asks for, by the tags of FIX 4.2."""
    said, party = {}, None
    for tag, value in message.fields:
        if tag == "448":
            party = value
        elif tag == "452":
            said.setdefault(PARTIES[value], party)
        elif tag not in ("453", "447"):
            said[{"1138": "111", "528": "47"}.get(tag, tag)] = canonical(tag, value)
    if said.get("59") == "7":
        said["40"] = {"1": "5", "2": "B"}[said["40"]]
        del said["59"]
    if "541" in said:
        said["205"] = int(said.pop("541")[6:])
    return message.kind, said


def names(refusal, message):
    """Whether a refusal names a message."""
    said = dict(refusal.fields)
    if "45" in said:
        return int(said["45"]) == message.number
    return message.kind in "DFG" and dict(message.fields).get("11") == said.get("379")


def kept(sent_ones, taken_ones):
    """Of what a side sent, what was not answered off; of what it took, what it did not refuse."""
    off = {int(dict(message.fields).get("45", 0)) for message in taken_ones if message.kind in "3j"}
    stands = [message for message in sent_ones if message.number not in off]
    refusals = [message for message in stands if message.kind in "3j"]
    return stands, [message for message in taken_ones
                    if not any(names(refusal, message) for refusal in refusals)]


def asked(messages, sense):
    """What the requests among these ask for."""
    return [sense(message) for message in messages
            if message.kind in "DFGH" and ("97", "Y") not in message.fields]


def reported(messages, change):
    """The book of orders behind the reports among these."""
    book = {}
    for message in messages:
        said = {tag: canonical(tag, value) for tag, value in message.fields}
        if message.kind == "8":
            step(book, said, change(said))
        elif message.kind == "9":
            step_cancel_reject(book, said)
    return [(order_id, order.state()) for order_id, order in book.items()]


def book42(sent, taken):
    """What a client asks for, and its book of orders, of what it sent and took."""
    stands, told = kept(sent, taken)
    return asked(stands, sense42), reported(told, change42)


def book50(sent, taken):
    """What a venue is asked for, and its book of orders, of what it sent and took."""
    stands, told = kept(sent, taken)
    return asked(told, sense50), reported(stands, change50)
