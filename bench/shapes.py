"""The inputs of bench/run, made from seeds: requests, messages, and the replies that they must get."""
import base64
import json
import random

CORE = "urn:ietf:params:jmap:core"
MAIL = "urn:ietf:params:jmap:mail"


def line_of(value):
    """A value as a line of compact JSON, the members of each object in order."""
    return (json.dumps(value, ensure_ascii=False, sort_keys=True, separators=(",", ":")) + "\n").encode()


# --- requests of Core/echo


def echo(arguments):
    return json.dumps({"using": [CORE], "methodCalls": [["Core/echo", arguments, "a"]]}, separators=(",", ":"))


def tree(rng, depth):
    if depth == 0:
        return rng.choice([1, 2, True, None, "abc", "hello world", -5, 123456])
    if rng.random() < 0.5:
        return [tree(rng, depth - 1) for _ in range(4)]
    return {f"k{n}": tree(rng, depth - 1) for n in range(4)}


def structured(rng):
    arguments = {}
    while len(json.dumps(arguments)) < 64000:
        for _ in range(20):
            arguments[f"m{len(arguments)}"] = tree(rng, 3)
    return echo(arguments)


def echoes(scale):
    """Lines of requests by shape; a scale of 1 is the full size."""
    rng = random.Random(1)
    return {
        "small": [echo({})] * max(1, int(200000 * scale)),
        "structured": [structured(rng) for _ in range(max(1, int(150 * scale)))],
        "text": [echo({"t": "x" * max(1, int(9000000 * scale))})],
    }


# --- requests over an account with mailboxes, and their replies

RIGHTS = {
    "mayAddItems": True, "mayCreateChild": True, "mayDelete": True, "mayReadItems": True, "mayRemoveItems": True, "mayRename": True,
    "maySetKeywords": True, "maySetSeen": True, "maySubmit": False,
}
NOTHING = {"isSubscribed": True, "parentId": None, "role": None, "sortOrder": 0, "totalEmails": 0, "totalThreads": 0, "unreadEmails": 0, "unreadThreads": 0}


def request(*calls):
    return line_of({"using": [CORE, MAIL], "methodCalls": list(calls)})


def reply(*responses):
    return line_of({"methodResponses": list(responses), "sessionState": "0"})


def creates(first, count):
    """The call that creates this many mailboxes, the first of which is number `first`."""
    wanted = {f"k{n:06}": {"name": f"Mailbox {n}"} for n in range(first, first + count)}
    return ["Mailbox/set", {"accountId": "A1", "create": wanted}, "set"]


def created(first, count):
    """Its response, where mailboxes are all that the account has and were made one after the other."""
    made = {f"k{n:06}": {"id": f"M{n}", "myRights": RIGHTS, **NOTHING} for n in range(first, first + count)}
    rest = dict.fromkeys(("destroyed", "notCreated", "notDestroyed", "notUpdated", "updated"))
    return ["Mailbox/set", {"accountId": "A1", "created": made, "newState": str(first + count - 1), "oldState": str(first - 1), **rest}, "set"]


def get(first, count):
    ids = [f"M{n}" for n in range(first, first + count)]
    return ["Mailbox/get", {"accountId": "A1", "ids": ids}, "get"]


def got(first, count):
    """The response to a get after the last of these mailboxes was made."""
    rows = [{"id": f"M{n}", "myRights": RIGHTS, "name": f"Mailbox {n}", **NOTHING} for n in range(first, first + count)]
    return ["Mailbox/get", {"accountId": "A1", "list": rows, "notFound": [], "state": str(first + count - 1)}, "get"]


# --- messages


def multipart(size, part_of):
    """A multipart/mixed of about `size` bytes, of parts that `part_of` makes from their number."""
    pieces = [b"Subject: a\r\nMIME-Version: 1.0\r\nContent-Type: multipart/mixed; boundary=\"b\"\r\n\r\n"]
    taken = 0
    while taken < size:
        piece = b"--b\r\n" + part_of(len(pieces)) + b"\r\n"
        pieces.append(piece)
        taken += len(piece)
    return b"".join(pieces) + b"--b--\r\n"


def in_base64(data):
    return base64.encodebytes(data).replace(b"\n", b"\r\n")


def attachment(number):
    return b"Content-Type: application/zip\r\nContent-Transfer-Encoding: base64\r\n\r\n" + in_base64(random.Random(number).randbytes(300000))


def lines_of_text(_number):
    return b"Content-Type: text/plain\r\n\r\n" + b"a line\r\n" * 50000


def quoted_text(number):
    """Text in quoted-printable, with an escape or two a line, and soft line breaks."""
    rng = random.Random(number)
    words = [b"word", b"caf=C3=A9", b"a=3Db", b"line", b"of text"]
    rows = (b"".join(rng.choice(words) + b" " for _ in range(9)) + rng.choice([b"=\r\n", b"x\r\n"]) for _ in range(5000))
    return b"Content-Type: text/plain; charset=utf-8\r\nContent-Transfer-Encoding: quoted-printable\r\n\r\n" + b"".join(rows)


def encoded_text(_number):
    """Text in base64."""
    head = b"Content-Type: text/plain; charset=utf-8\r\nContent-Transfer-Encoding: base64\r\n\r\n"
    return head + in_base64(b"a line of some text that is shown\n" * 6000)


def single(size):
    return b"Subject: a\r\nContent-Type: text/plain\r\n\r\n" + b"a line\r\n" * (size // 8)


def parameters(size):
    """A message that is one Content-Type of short parameters."""
    return b"Content-Type: text/plain" + b";a=b" * (size // 4) + b"\r\n\r\n"


def message(shape, size):
    of_parts = {"attachments": attachment, "lines": lines_of_text, "quoted": quoted_text, "encoded": encoded_text}
    if shape in of_parts:
        return multipart(size, of_parts[shape])
    return single(size)


MESSAGES = ("attachments", "lines", "quoted", "encoded", "single")
