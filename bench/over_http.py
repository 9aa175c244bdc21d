"""A server of `jmap serve` with generated messages, a server of Python's that answers fixed bytes, and a client in C that asks either."""
import dataclasses
import http.client
import json
import os
import pathlib
import socket
import sqlite3
import subprocess
import sys
import time

import imports
import shapes

BENCH = pathlib.Path(__file__).resolve().parent
SECONDS = 60
CONFIG = {"users": [{"accounts": [{"id": "A1", "name": "Mail", "readOnly": False}], "name": "ann", "token": "t"}]}

# Answers each request by the bytes of a file, in one write, over connections that are kept.
PEER = """
import http.server, sys
FIXED = open(sys.argv[2], "rb").read()
class Handler(http.server.BaseHTTPRequestHandler):
    protocol_version = "HTTP/1.1"
    disable_nagle_algorithm = True
    def do_POST(self):
        self.rfile.read(int(self.headers["Content-Length"]))
        self.wfile.write(FIXED)
    def log_message(self, *_):
        pass
class Server(http.server.ThreadingHTTPServer):
    request_queue_size = 64
Server(("127.0.0.1", int(sys.argv[1])), Handler).serve_forever()
"""


def free_port():
    with socket.socket() as one:
        one.bind(("127.0.0.1", 0))
        return one.getsockname()[1]


def is_listening(port):
    with open("/proc/net/tcp", encoding="ascii") as table:
        return any(row.split()[1] == f"0100007F:{port:04X}" and row.split()[3] == "0A" for row in table.readlines()[1:])


class Running:
    """A server that runs until the end of a `with`."""

    def __init__(self, *command):
        self.process = subprocess.Popen([str(word) for word in command], stdout=subprocess.DEVNULL, stderr=subprocess.DEVNULL)

    def __enter__(self):
        end = time.monotonic() + SECONDS
        while not is_listening(self.port):
            assert self.process.poll() is None and time.monotonic() < end, "the server does not listen"
            time.sleep(0.01)
        return self

    def __exit__(self, *_):
        self.process.kill()
        self.process.wait()

    def processor_seconds(self):
        """The processor time that all its threads have taken, those that ended too."""
        fields = pathlib.Path(f"/proc/{self.process.pid}/stat").read_text().rpartition(")")[2].split()
        return (int(fields[11]) + int(fields[12])) / 100

    def held_bytes(self):
        """The memory that it has in use."""
        return int(pathlib.Path(f"/proc/{self.process.pid}/statm").read_text().split()[1]) * 4096


class Ours(Running):
    """`jmap serve` over a folder."""

    def __init__(self, program, folder):
        self.port = free_port()
        self.folder = folder
        config = folder / "config.json"
        config.write_text(json.dumps(CONFIG))
        super().__init__(program, "serve", config, folder, self.port, 1000000)

    def request(self, path, body, more=""):
        """The bytes of a request, with more header fields, each with its line end."""
        head = f"POST {path} HTTP/1.1\r\nHost: 127.0.0.1:{self.port}\r\nAuthorization: Bearer t\r\nContent-Length: {len(body)}\r\n{more}\r\n"
        return head.encode() + body

    def calls(self, *calls, more=""):
        return self.request("/jmap/api", shapes.request(*calls), more)

    def ask(self, client, path, body):
        client.request("POST", path, body=body, headers={"Authorization": "Bearer t"})
        response = client.getresponse()
        data = response.read()
        assert response.status in (200, 201), data[:200]
        return json.loads(data)

    def call(self, client, *calls):
        return [args for _, args, _ in self.ask(client, "/jmap/api", shapes.request(*calls))["methodResponses"]]

    def client(self):
        return http.client.HTTPConnection("127.0.0.1", self.port, timeout=SECONDS)

    def fill(self, made):
        """Creates a mailbox, and uploads and imports messages into it. The ids of the emails."""
        client = self.client()
        self.call(client, shapes.creates(1, 1))
        ids = self.add(client, made)
        client.close()
        return ids

    def add(self, client, made):
        """Uploads and imports messages into the mailbox. The ids of the emails."""
        ids = []
        for first in range(0, len(made), imports.CALL):
            blobs = [self.ask(client, "/jmap/upload/A1/", data)["blobId"] for _, data in made[first : first + imports.CALL]]
            created = json.loads(imports.import_call(first + 1, blobs, "M1"))["methodCalls"][0]
            (imported,) = self.call(client, created)
            ids += [imported["created"][key]["id"] for key in sorted(imported["created"])]
        assert len(ids) == len(made), "an import was refused"
        return ids

    def flag(self, ids):
        """Sets `$flagged` on these emails, one after the other."""
        client = self.client()
        for one in ids:
            (reply,) = self.call(client, ["Email/set", {"accountId": "A1", "update": {one: {"keywords/$flagged": True}}}, "0"])
            assert reply["updated"] == {one: None}, "an update was refused"
        client.close()

    def answer(self, request):
        """The bytes of the answer to a request on a connection of its own."""
        with socket.create_connection(("127.0.0.1", self.port), timeout=SECONDS) as line:
            line.sendall(request)
            line.shutdown(socket.SHUT_WR)
            return b"".join(iter(lambda: line.recv(65536), b""))


class Fixed(Running):
    """Python's `http.server` that answers these bytes."""

    def __init__(self, folder, answer):
        self.port = free_port()
        source = folder / "fixed"
        source.write_bytes(answer)
        super().__init__(sys.executable, "-c", PEER, self.port, source)


NGINX = """
worker_processes 1;
daemon off;
pid {folder}/nginx.pid;
error_log {folder}/nginx.log;
{user}
events {{}}
http {{
    access_log off;
    keepalive_requests 1000000;
    {folders}
    server {{
        listen 127.0.0.1:{port};
        default_type application/json;
        location / {{ return 200 '{body}'; }}
    }}
}}
"""


class Nginx(Running):
    """nginx with one worker that answers this text."""

    def __init__(self, folder, body):
        self.port = free_port()
        temporary = ("client_body", "proxy", "fastcgi", "uwsgi", "scgi")
        text = NGINX.format(
            folder=folder,
            user="user root;" if os.geteuid() == 0 else "",
            folders=" ".join(f"{name}_temp_path {folder}/{name};" for name in temporary),
            port=self.port,
            body=body,
        )
        source = folder / "fixed.conf"
        source.write_text(text)
        super().__init__("nginx", "-p", folder, "-c", source)


@dataclasses.dataclass
class Load:
    """Requests a second, the seconds of the middle request and of that at 99 of 100, the server's processor time a request, and the lengths of
    the bodies."""

    rate: float
    middle: float
    late: float
    processor: float
    least: int
    most: int


def build_client(folder):
    """Compiles the client."""
    client = folder / "http_load"
    subprocess.run(["cc", "-D_GNU_SOURCE", "-O2", "-o", client, BENCH / "http_load.c"], check=True)
    return client


def load(client, server, connections, count, requests, folder):
    """Sends so many requests over so many connections, and measures the answers."""
    source = folder / "requests"
    source.write_bytes(b"".join(b"%d\n%s" % (len(one), one) for one in requests))
    before = server.processor_seconds()
    ran = subprocess.run([client, str(server.port), str(connections), str(count), source], stdout=subprocess.PIPE, check=True)
    whole, middle, late, least, most = map(int, ran.stdout.split())
    return Load(count * 1e9 / whole, middle / 1e9, late / 1e9, (server.processor_seconds() - before) / count, least, most)


def idle_bytes(server, connections):
    """The memory that so many connections take on which nothing is asked."""
    before = server.held_bytes()
    lines = [socket.create_connection(("127.0.0.1", server.port), timeout=SECONDS) for _ in range(connections)]
    time.sleep(0.5)
    grown = server.held_bytes() - before
    for line in lines:
        line.close()
    return grown


def commits_a_second(path, first, count, copy):
    """How many of the rows of an account's file, from this one on, Python commits in a second to another file, each in a transaction."""
    source = sqlite3.connect(path)
    rows = source.execute("SELECT place, bytes FROM commits WHERE place >= ? ORDER BY place LIMIT ?", (first, count)).fetchall()
    source.close()
    base = sqlite3.connect(copy, isolation_level=None)
    base.execute("PRAGMA journal_mode=WAL")
    base.execute("PRAGMA synchronous=FULL")
    base.execute("CREATE TABLE commits (place INTEGER PRIMARY KEY, bytes BLOB NOT NULL)")
    begin = time.perf_counter()
    for row in rows:
        base.execute("BEGIN")
        base.execute("INSERT INTO commits (place, bytes) VALUES (?, ?)", row)
        base.execute("COMMIT")
    took = time.perf_counter() - begin
    base.close()
    return len(rows) / took
