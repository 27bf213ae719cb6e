"""Two small peers in memory, a client of FIX 4.2 and a venue of FIXT 1.1, that keep their numbers
over connections and lives: they ask for what they miss, and send again what was not taken. A text
of a frame or a body has `|` for SOH."""
import copy
from datetime import datetime, timezone
from functools import lru_cache

SESSION = "01245A"


@lru_cache(maxsize=None)
def fields(text):
    """The fields of a frame or a body, in their order."""
    return tuple(tuple(field.split("=", 1)) for field in text.split("|")[:-1])


def stamp(moment):
    """A UTCTimestamp of a moment in milliseconds."""
    when = datetime.fromtimestamp(moment / 1000, timezone.utc)
    return when.strftime("%Y%m%d-%H:%M:%S") + (f".{moment % 1000:03}" if moment % 1000 else "")


@lru_cache(maxsize=None)
def summed(begin, body):
    """The frame of a body, with BodyLength(9) and CheckSum(10)."""
    front = f"8={begin}|9={len(body)}|{body}"
    return f"{front}10={sum(front.replace('|', chr(1)).encode()) % 256:03}|"


class Peer:
    """The counterparty of one side. What it says to an application message, once, `answers` has by
    the message's `key`; `#` stands there for the number of the message."""

    def __init__(self, name, logon, answers):
        self.name = name
        self.logon = logon
        self.answers = answers
        self.wrong = []
        self.day = -1
        self.begin_day()

    def begin_day(self):
        """Begins a session day: it knows nothing of the one before."""
        self.day += 1
        self.next_in = self.next_out = 1
        self.said = {}  # by number: type, content, moment
        self.answered = set()  # the keys of what it has answered
        self.lose()

    def copy(self):
        """The same peer, to go on otherwise."""
        peer = copy.copy(self)
        peer.said, peer.answered = dict(self.said), set(self.answered)
        peer.waiting, peer.wrong = self.waiting[:], self.wrong[:]
        return peer

    def body(self, number, moment, dup=False):
        """The body of what was said under a number."""
        kind, content, first = self.said[number]
        return self.framed(kind, number, content, moment, first if dup else None)

    def framed(self, kind, number, content, moment, first=None):
        """A body: the header in the order of the standard, and a content."""
        again, rest = ("97=Y|", content[5:]) if content.startswith("97=Y|") else ("", content)
        dup, original = ("43=Y|", f"122={stamp(first)}|") if first is not None else ("", "")
        return (f"35={kind}|49={self.name}|56=GATE|34={number}|{dup}{again}52={stamp(moment)}|"
                f"{original}{rest}")

    def say(self, message, moment):
        """Says a message, `TYPE CONTENT`, under its next number."""
        kind, _, content = message.partition(" ")
        self.said[self.next_out] = kind, content, moment
        self.waiting.append(self.body(self.next_out, moment))
        self.next_out += 1

    def resend(self, first, last, moment):
        """Sends again what was said from one number to another, the session's own as gap fills."""
        number = first
        while number <= last:
            if self.said[number][0] not in SESSION:
                self.waiting.append(self.body(number, moment, True))
                number += 1
                continue
            begin = number
            while number <= last and self.said[number][0] in SESSION:
                number += 1
            self.waiting.append(self.framed("4", begin, f"123=Y|36={number}|", moment,
                                            self.said[begin][2]))

    def hear(self, frame, moment):
        """Hears a frame of the gateway."""
        said = dict(reversed(fields(frame)))
        kind, number = said["35"], int(said["34"])
        if number < self.next_in:
            if said.get("43") != "Y":
                self.wrong.append(f"{self.name}: an old number: {frame}")
            return
        if number == self.next_in:
            fill = kind == "4" and said.get("123") == "Y"
            self.next_in = int(said["36"]) if fill else number + 1
        elif kind not in "A2":
            self.miss(number, moment)
            return
        early = number >= self.next_in
        self.take(kind, number, said, moment)
        if early:
            self.miss(number, moment)

    def miss(self, number, moment):
        """A number came early: what is missing is asked for, once."""
        if self.asked < self.next_in:
            self.say(f"2 7={self.next_in}|16=0|", moment)
        self.asked = max(self.asked, number)

    def take(self, kind, number, said, moment):
        """Does what a message calls for."""
        if kind == "A" and self.name == "VENU":
            self.say("A " + self.logon, moment)
        elif kind == "2":
            last = self.next_out - 1
            self.resend(int(said["7"]), int(said["16"]) or last, moment)
        elif kind == "1":
            self.say(f"0 112={said['112']}|", moment)
        elif kind == "5":
            self.lose()
            if said.get("58", "session ended") != "session ended":
                self.wrong.append(f"{self.name}: a Logout, {said['58']}")
        elif kind not in SESSION and key(said) not in self.answered:
            self.answered.add(key(said))
            for message in self.answers.get(key(said), []):
                self.say(message.replace("#", str(number)), moment)

    def lose(self):
        """The connection has ended, with what was on its way."""
        self.waiting = []  # bodies that are not on their way yet
        self.asked = 0  # the highest number that it has seen early


def key(said):
    """What an application message is known by: the ExecID(17) of a report, and the ClOrdID(11) of
    another message behind its type."""
    return said["17"] if said["35"] == "8" else f"{said['35']} {said.get('11', '')}"
