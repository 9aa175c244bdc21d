"""Commits of edits that put emails, made from a seed: their bytes by docs/rules/kept-bytes.md, and how long Python's `pickle` takes for
the same records."""
import gc
import pickle
import random
import statistics
import struct
import time


def encode_number(value):
    return struct.pack(">Q", value)


def encode_list(items, encode):
    return encode_number(len(items)) + b"".join(map(encode, items))


def encode_text(text):
    data = text.encode()
    return encode_number(len(data)) + data


def encode_date(seconds):
    """A date: its seconds since the beginning of the year 1, from those since 1970."""
    return encode_number(seconds + 62135596800)


def encode_edit(edit):
    """The bytes of an edit that puts an email, as docs/rules/kept-bytes.md says."""
    tag, (own, thread, blob, inside, keywords, size, received, summary), was = edit
    links, subject, author, receiver, sent, attachment = summary
    return b"".join((
        bytes([tag]), encode_number(own), encode_number(thread), encode_number(blob), encode_list(inside, encode_number), encode_list(keywords, encode_text), encode_number(size), encode_date(received),
        encode_list(links, encode_text), encode_text(subject), encode_text(author), encode_text(receiver),
        b"\0" if sent is None else b"\1" + encode_date(sent), bytes([attachment]), bytes([was]),
    ))


def encode_commit(commit):
    (maker, serial), blobs, edits = commit
    return b"\1" + encode_number(maker) + encode_number(serial) + encode_list(blobs, encode_text) + encode_list(edits, encode_edit)


WORDS = "meeting budget report review draft invoice travel schedule release question offer contract minutes summary update plan for the of next week".split()
PEOPLE = "Ada Bruno Chiara Dmitri Elif Farah Günther Hana Ines João Kwame Liesl Mei Noor Olga Pavel".split()
KEYWORDS = ["$answered", "$flagged", "$forwarded", "$seen", "project-north"]


def email_of(rng, own):
    """An email as a tuple, with lists that rise."""
    links = sorted(f"{rng.getrandbits(64):016x}.{rng.getrandbits(32):08x}@mail.example.org" for _ in range(rng.choice([1, 1, 1, 2, 3])))
    received = 1577836800 + rng.randrange(150000000)
    subject = " ".join(rng.choice(WORDS) for _ in range(rng.randrange(3, 9)))
    names = (f"{rng.choice(PEOPLE)} {rng.choice(PEOPLE)}son", f"team-{rng.randrange(40)}@example.org")
    sent = None if rng.random() < 0.05 else received - rng.randrange(600)
    inside = sorted(rng.sample(range(1, 30), rng.choice([1, 1, 1, 2])))
    keywords = [keyword for keyword in KEYWORDS if rng.random() < 0.3]
    return (own, rng.randrange(1, own + 1), own, inside, keywords, rng.randrange(800, 90000), received, (links, subject, *names, sent, rng.random() < 0.2))


def commits_of(count, edits):
    """Commits of puts of emails, as tuples."""
    rng = random.Random(7)
    return [((1, n + 1), [], [(3, email_of(rng, n * edits + k + 1), rng.random() < 0.5) for k in range(edits)]) for n in range(count)]


def pickled(commits):
    """The seconds that Python's pickle takes to write the commits, and to read them again; medians of five."""
    wrote, read = [], []
    gc.disable()
    for _ in range(5):
        begin = time.perf_counter()
        rows = [pickle.dumps(commit, pickle.HIGHEST_PROTOCOL) for commit in commits]
        wrote.append(time.perf_counter() - begin)
        begin = time.perf_counter()
        again = [pickle.loads(row) for row in rows]
        read.append(time.perf_counter() - begin)
        assert again == commits, "pickle gave other records"
        del again
    gc.enable()
    return statistics.median(wrote), statistics.median(read)
