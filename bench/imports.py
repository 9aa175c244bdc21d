"""Messages in threads, made from a seed; the lines that upload and import them; and what Python does with the same messages."""
import base64
import email
import email.policy
import mailbox
import random
import sqlite3
import time

import mail_folder
import shapes

CALL = 50  # imports of one call


def messages(count, seed=1):
    """Messages of 2 to 20 KB in threads of 1 to 20, each with the links to those before it in its thread."""
    rng = random.Random(seed)
    number = thread = 0
    while number < count:
        thread += 1
        ids = []
        subject = f"{' '.join(rng.choice(mail_folder.WORDS) for _ in range(4))} {thread}"
        for place in range(rng.randrange(1, 21)):
            if number == count:
                return
            number += 1
            yield number, message(rng, number, ids, f"Re: {subject}" if place else subject)


def message(rng, number, ids, subject):
    own = f"<{number}.{rng.randrange(10**9)}@mail.example>"
    links = "".join(f"In-Reply-To: {ids[-1]}\r\nReferences: {' '.join(ids[-8:])}\r\n" if ids else "")
    ids.append(own)
    day = 1 + number // 400 % 28
    date = f"{day} Mar 2024 {number // 3600 % 24:02}:{number // 60 % 60:02}:{number % 60:02} +0000"
    head = (
        f"Received: from relay.example (relay.example [192.0.2.7])\r\n\tby mx.example with ESMTPS id {number}; {date}\r\n"
        f"From: {mail_folder.mailbox(rng)}\r\nTo: {mail_folder.mailbox(rng)}, {mail_folder.mailbox(rng)}\r\n"
        f"Subject: {subject}\r\nDate: {date}\r\nMessage-ID: {own}\r\n{links}MIME-Version: 1.0\r\n"
    )
    return (head + mail_folder.body_of(rng, number, int(1700 * 8 ** rng.random()))).encode()


def upload(message):
    return b"+" + base64.b64encode(message) + b"\n"


def import_call(first, blobs, mailbox_id):
    """One Email/import of these blobs, the first of which is number `first`."""
    wanted = {f"k{n:06}": {"blobId": blob, "mailboxIds": {mailbox_id: True}} for n, blob in enumerate(blobs, first)}
    return shapes.request(["Email/import", {"accountId": "A1", "emails": wanted}, "import"])


def get_call(ids, bodies):
    arguments = {"accountId": "A1", "ids": ids}
    if bodies:
        arguments["fetchAllBodyValues"] = True
    return shapes.request(["Email/get", arguments, "get"])


class Kept:
    """A Maildir and a table in memory with the subject, the date and the links of each message: what Python's mail programs keep."""

    def __init__(self, folder):
        self.box = mailbox.Maildir(folder, create=True)
        self.table = sqlite3.connect(":memory:")
        self.table.execute("CREATE TABLE mails (number INTEGER PRIMARY KEY, subject TEXT, sent TEXT, links TEXT)")

    def add(self, number, data):
        self.box.add(data)
        parsed = email.message_from_bytes(data, policy=email.policy.default)
        links = " ".join(str(parsed[name]) for name in ("message-id", "in-reply-to", "references") if parsed[name] is not None)
        self.table.execute("INSERT INTO mails VALUES (?, ?, ?, ?)", (number, str(parsed["subject"]), parsed["date"].datetime.isoformat(), links))


def shown(data, bodies):
    """What a mail program shows of a message: people, subject, date, links, the leaves, and the texts where `bodies` says so."""
    parsed = email.message_from_bytes(data, policy=email.policy.default)
    people = [[(one.addr_spec, one.display_name) for one in parsed[name].addresses] for name in ("from", "to") if parsed[name] is not None]
    leaves = [(part.get_content_type(), len(part.get_payload(decode=True))) for part in parsed.walk() if not part.is_multipart()]
    body = parsed.get_body(("plain", "html"))
    preview = body.get_content()[:256] if body is not None else ""
    texts = [part.get_content() for part in parsed.walk() if bodies and part.get_content_maintype() == "text"]
    return str(parsed["subject"]), parsed["date"].datetime, people, leaves, preview, texts


def wanted(data, bodies):
    """What is compared of a message: its subject, its size, its people, and its texts where `bodies` says so."""
    subject, _, people, _, _, texts = shown(data, bodies)
    return subject, len(data), people, [text.replace("\r\n", "\n") for text in texts]


def found(email, bodies):
    """The same of an email as the server shows it."""
    people = [[(one["email"], one["name"] or "") for one in email[name]] for name in ("from", "to") if email[name] is not None]
    values = email["bodyValues"] if bodies else {}
    return email["subject"], email["size"], people, [values[part]["value"] for part in sorted(values, key=int)]


def seconds(action, rounds):
    took = []
    for _ in range(rounds):
        begin = time.perf_counter()
        action()
        took.append(time.perf_counter() - begin)
    return min(took)
