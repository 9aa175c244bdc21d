"""The emails that `measure_queries N` generates, as tuples, and what Python finds among them."""
import email
import email.policy
import json
import time

WORDS = ("meeting", "invoice", "summer", "release", "garden", "report", "window", "yellow")
RUNS = 3


def body(number):
    text = "zebra " if number % 50 == 0 else ""
    place = number % len(WORDS)
    while len(text) < 1000:
        text += WORDS[place] + " "
        place = (place + 1) % len(WORDS)
    return text


def message(number):
    return (
        f"From: Person {number % 977} <p{number}@mail.example>\r\nTo: list@mail.example\r\nSubject: Topic {number % 1009}\r\n"
        f"Message-ID: <{number}@mail.example>\r\nContent-Type: text/plain; charset=utf-8\r\n\r\n{body(number)}"
    ).encode()


class Mail:
    """Records as tuples: number, thread, mailboxes, keywords, received, author, raw message."""

    def __init__(self, count):
        self.emails = [
            (
                number,
                number // 3 + 1,
                (number % 4 + 1,),
                tuple(["$flagged"] * (number % 16 == 0) + ["$seen"] * (number % 3 == 0)),
                1600000000 + number * 7919 % 1000003 * 60,
                f"Person {number % 977}",
                message(number),
            )
            for number in range(1, count + 1)
        ]

    def inbox(self):
        found = sorted([e for e in self.emails if 1 in e[2]], key=lambda e: (-e[4], e[0]))
        first = {}
        for e in found:
            first.setdefault(e[1], e[0])
        return list(first.values()), None

    def keyword(self):
        found = sorted([e for e in self.emails if "$flagged" in e[3]], key=lambda e: (-e[4], e[0]))
        return [e[0] for e in found], None

    def total(self):
        numbers, _ = self.keyword()
        return numbers, len(numbers)

    def authors_with(self):
        """The emails whose author, which is kept in the tuple, contains the needle. An author is a name without the address, so it isn't quite `from`."""
        return [e for e in self.emails if "person 97" in e[5].lower()]

    def messages_from(self):
        """The emails whose fields From contain the needle, by Python's `email` over the raw messages."""
        found = []
        for e in self.emails:
            parsed = email.message_from_bytes(e[6], policy=email.policy.compat32)
            if any("person 97" in value.lower() for value in parsed.get_all("from", [])):
                found.append(e)
        return found

    def from_(self):
        found = [e[0] for e in self.messages_from()]
        return found, len(found)

    def from_tuples(self):
        found = [e[0] for e in self.authors_with()]
        return found, len(found)

    def from_page(self):
        return [e[0] for e in sorted(self.messages_from(), key=lambda e: (-e[4], e[0]))], None

    def from_page_tuples(self):
        return [e[0] for e in sorted(self.authors_with(), key=lambda e: (-e[4], e[0]))], None

    def text(self):
        found = []
        for e in self.emails:
            parsed = email.message_from_bytes(e[6], policy=email.policy.compat32)
            fields = [value for name in ("from", "to", "cc", "bcc", "subject") for value in parsed.get_all(name, [])]
            if any("zebra" in value.lower() for value in fields) or parsed.get_payload(decode=True).decode("utf-8").lower().find("zebra") >= 0:
                found.append(e[0])
        return found, len(found)


def changed(count):
    """The reply to Email/changes from a hundred edits before the end: each edit created an email."""
    ids = [f"E{n}" for n in range(max(0, count - 100) + 1, count + 1)]
    return {"accountId": "A1", "created": ids, "destroyed": [], "hasMoreChanges": False, "newState": str(count), "oldState": str(max(0, count - 100)), "updated": []}


def reply(numbers, total):
    shown = {"accountId": "A1", "canCalculateChanges": True, "ids": [f"E{n}" for n in numbers[:30]], "position": 0, "queryState": "1"}
    if total is not None:
        shown["total"] = total
    return shown


def timed(call):
    """What a call returns, and the least seconds that it takes."""
    took = []
    for _ in range(RUNS):
        begin = time.perf_counter()
        found = call()
        took.append(time.perf_counter() - begin)
    return found, min(took)


def replies(count):
    """For each query the reply that Python's lists give, and the seconds. `from` and `from_page` have a second peer, over the authors in the tuples."""
    mail = Mail(count)
    calls = {
        "inbox": mail.inbox,
        "keyword": mail.keyword,
        "total": mail.total,
        "from": mail.from_,
        "from_tuples": mail.from_tuples,
        "from_page": mail.from_page,
        "from_page_tuples": mail.from_page_tuples,
        "text": mail.text,
    }
    out = {}
    for name, call in calls.items():
        (numbers, total), seconds = timed(call)
        out[name] = (json.dumps(reply(numbers, total), separators=(",", ":"), sort_keys=True), seconds)
    return out
