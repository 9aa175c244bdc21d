"""A folder of messages that look like real mail, made from a seed, and what Python's `email` says of them."""
import base64
import quopri
import random

WORDS = (
    "meeting agenda report budget summer garden invoice please attached regards tomorrow the a of and to in we you it is on for "
    "have with this that will can our plan next week morning train ticket photo family dinner street house water pencil letter"
).split()
NAMES = ["Ann Lee", "Bob Stone", "Zoë Müller", "José García", "山田太郎", "Ed", "O'Neil, Pat", "Kari Nordmann", "Анна Петрова"]
ZONES = ["+0000", "+0200", "-0500", "+0530", "GMT", "-0800"]
MONTHS = "Jan Feb Mar Apr May Jun Jul Aug Sep Oct Nov Dec".split()
DAYS = "Mon Tue Wed Thu Fri Sat Sun".split()

REFERENCE = """
import email, pathlib, sys, time
from email import policy
leaves = 0
begin = time.perf_counter()
for path in sorted(pathlib.Path(sys.argv[1]).iterdir()):
    message = email.message_from_bytes(path.read_bytes(), policy=policy.default)
    str(message["subject"])
    for name in ("from", "to", "cc"):
        if message[name] is not None:
            [(address.addr_spec, address.display_name) for address in message[name].addresses]
    message["date"].datetime
    for part in message.walk():
        if not part.is_multipart():
            part.get_content_type(), len(part.get_payload(decode=True))
            leaves += 1
    body = message.get_body(("plain", "html"))
    if body is not None:
        body.get_content()
print(leaves, time.perf_counter() - begin)
"""


def word(text):
    """A string as it is written in a header: as it is, or as an encoded word (RFC 2047)."""
    if text.isascii():
        return text
    return "=?utf-8?B?" + base64.b64encode(text.encode()).decode() + "?="


def mailbox(rng):
    name = rng.choice(NAMES)
    address = f"user{rng.randrange(5000)}@mail{rng.randrange(40)}.example"
    if not name.isascii():
        return f"{word(name)} <{address}>"
    return f'"{name}" <{address}>' if "," in name else f"{name} <{address}>"


def text_of(rng, size):
    lines, held = [], 0
    while held < size:
        line = " ".join(rng.choice(WORDS) for _ in range(rng.randrange(4, 13)))
        if rng.random() < 0.1:
            line += " café – naïve"
        lines.append(line)
        held += len(line) + 2
    return "\r\n".join(lines) + "\r\n"


def part(kind, body, coding="7bit", more=""):
    return f"Content-Type: {kind}\r\nContent-Transfer-Encoding: {coding}\r\n{more}\r\n{body}"


def quoted(text):
    return quopri.encodestring(text.encode()).decode().replace("\r\n", "\n").replace("\n", "\r\n")


def plain(rng, size):
    return part("text/plain; charset=utf-8", quoted(text_of(rng, size)), "quoted-printable")


def html(rng, size):
    body = "<html><body>\r\n" + "".join(f"<p>{line}</p>\r\n" for line in text_of(rng, size).split("\r\n")) + "</body></html>\r\n"
    return part("text/html; charset=utf-8", quoted(body), "quoted-printable")


def attached(rng, size):
    body = base64.encodebytes(rng.randbytes(size * 3 // 4)).decode().replace("\n", "\r\n")
    name = f"file{rng.randrange(100)}.pdf"
    return part(f'application/pdf; name="{name}"', body, "base64", f'Content-Disposition: attachment; filename="{name}"\r\n')


def multipart(kind, boundary, parts):
    pieces = "".join(f"--{boundary}\r\n{one}\r\n" for one in parts)
    return f'Content-Type: multipart/{kind}; boundary="{boundary}"\r\n\r\nThis is a message in parts.\r\n{pieces}--{boundary}--\r\n'


def body_of(rng, number, size):
    shape = rng.random()
    if shape < 0.3:
        return plain(rng, size)
    both = multipart("alternative", f"alt-{number}", [plain(rng, min(size // 3, 20000)), html(rng, min(size // 3, 40000))])
    if shape < 0.65:
        return both
    return multipart("mixed", f"mix-{number}", [both, attached(rng, size // 2)] + ([attached(rng, size // 4)] if shape > 0.9 else []))


def message(rng, number, size):
    date = f"{rng.choice(DAYS)}, {rng.randrange(1, 29)} {rng.choice(MONTHS)} {rng.randrange(2001, 2026)} {rng.randrange(24):02}:{rng.randrange(60):02}:{rng.randrange(60):02} {rng.choice(ZONES)}"
    subject = " ".join(rng.choice(WORDS) for _ in range(5))
    if rng.random() < 0.3:
        subject = word(subject + " über")
    received = "".join(
        f"Received: from relay{n}.example (relay{n}.example [192.0.2.{n}])\r\n\tby mx{n}.example with ESMTPS id {rng.randrange(10**9)}\r\n\tfor <user@mail.example>; {date}\r\n"
        for n in range(rng.randrange(2, 6))
    )
    references = "".join(f"\r\n <{rng.randrange(10**12)}@mail.example>" for _ in range(rng.randrange(0, 6)))
    head = (
        f"Return-Path: <user@mail.example>\r\n{received}From: {mailbox(rng)}\r\nTo: " + ",\r\n ".join(mailbox(rng) for _ in range(rng.randrange(1, 9)))
        + "\r\n" + (f"Cc: {mailbox(rng)}, {mailbox(rng)}\r\n" if rng.random() < 0.4 else "")
        + f"Subject: {subject}\r\nDate: {date}\r\nMessage-ID: <{number}@mail.example>\r\n" + (f"References:{references}\r\n" if references else "") + "MIME-Version: 1.0\r\n"
    )
    return (head + body_of(rng, number, size)).encode()


def make(folder, count=1000, seed=1):
    """Writes the messages, of 2 to 200 KB, most of them small, and gives how many bytes they have."""
    rng = random.Random(seed)
    held = 0
    for number in range(1, count + 1):
        size = int(2000 * 100 ** (rng.random() ** 2))
        made = message(rng, number, size)
        (folder / f"{number:06}.eml").write_bytes(made)
        held += len(made)
    return held


def long_message(kind, count):
    """One message that grows with the count, in one of the ways of LONG."""
    if kind == "addresses":
        return ("To: " + ",\r\n ".join(f"Name {n} <user{n}@mail.example>" for n in range(count * 25)) + "\r\n\r\nhi\r\n").encode()
    if kind == "parts":
        return multipart("mixed", "b", [part("text/plain", f"text {n}") for n in range(count // 4)]).encode()
    if kind == "nested":
        body = part("text/plain", "text\r\n" * count * 40)
        for depth in range(30):
            body = multipart("mixed", f"b{depth}", [body])
        return body.encode()
    if kind == "html":
        return part("text/html; charset=utf-8", "<p>some < text\r\n" * count * 60).encode()
    return part("text/plain; charset=utf-8", "=C3=A9t=C3=A9 and some more text =\r\n" * count * 60, "quoted-printable").encode()


LONG = ("addresses", "parts", "nested", "html", "quoted")
