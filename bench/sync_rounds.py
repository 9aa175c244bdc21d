"""Rounds of a client of `jmap serve`, ours next to bench/sync_like_jmap.py: what each asks, prints and keeps, and what it takes."""
import dataclasses
import http.client
import http.server
import pathlib
import shutil
import subprocess
import sys
import threading

import processes

BENCH = pathlib.Path(__file__).resolve().parent
TOKEN = "t"
SECONDS = 600


class Recorder:
    """A server in a thread that passes each request on to another one. It keeps their methods, paths and bodies, and the length of the longest reply."""

    def __init__(self, port):
        self.requests = []
        self.longest = 0
        recorder = self

        class Handler(http.server.BaseHTTPRequestHandler):
            protocol_version = "HTTP/1.1"
            disable_nagle_algorithm = True

            def setup(self):
                super().setup()
                self.line = http.client.HTTPConnection("127.0.0.1", port, timeout=SECONDS)

            def finish(self):
                self.line.close()
                super().finish()

            def pass_on(self):
                size = self.headers["Content-Length"]
                body = None if size is None else self.rfile.read(int(size))
                recorder.requests.append((self.command, self.path, body))
                self.line.request(self.command, self.path, body=body, headers={"Authorization": self.headers["Authorization"]})
                response = self.line.getresponse()
                reply = response.read()
                recorder.longest = max(recorder.longest, len(reply))
                self.send_response(response.status)
                self.send_header("Content-Type", "application/json")
                self.send_header("Content-Length", str(len(reply)))
                self.end_headers()
                self.wfile.write(reply)

            do_GET = do_POST = pass_on

            def log_message(self, *_):
                pass

        self.server = http.server.ThreadingHTTPServer(("127.0.0.1", 0), Handler)
        self.port = self.server.server_address[1]

    def __enter__(self):
        threading.Thread(target=self.server.serve_forever, daemon=True).start()
        return self

    def __exit__(self, *_):
        self.server.shutdown()
        self.server.server_close()


@dataclasses.dataclass
class Made:
    """What a round made: its status, what it printed, its requests, the length of the longest reply, and the file."""

    status: int
    printed: bytes
    requests: list
    longest: int
    kept: bytes


def same(what, ours, theirs):
    """Fails if the sides differ."""
    at = next((n for n, (one, other) in enumerate(zip(ours, theirs)) if one != other), min(len(ours), len(theirs)))
    assert ours == theirs, f"other {what} from {at} on: {ours[at : at + 200]} and not {theirs[at : at + 200]}"


def run_in_turn(commands, runs):
    """The least processor time and the greatest peak of each command. A command is made anew for each run; they take turns, so that a busy moment meets all."""
    rounds = [[processes.run_by_processor(make()) for make in commands] for _ in range(runs)]
    return [processes.Ran(min(one.seconds for one in ran), max(one.peak for one in ran)) for ran in zip(*rounds)]


def beyond(ran, start):
    """What ran without its start."""
    return processes.Ran(max(ran.seconds - start.seconds, 1e-6), ran.peak)


class Rounds:
    """The rounds of both sides with the server on a port, each over a copy of the same file."""

    def __init__(self, program, port, folder):
        self.port = port
        self.ours = (folder / "ours", (program, "sync"))
        self.theirs = (folder / "theirs", (sys.executable, BENCH / "sync_like_jmap.py"))
        self.program = program

    def command(self, side, port, before):
        """The command of a round over what was kept before, if there was anything."""
        file, words = side
        if before is None:
            file.unlink(missing_ok=True)
        else:
            shutil.copy(before, file)
        return (*words, "127.0.0.1", str(port), TOKEN, file)

    def made(self, side, before):
        """What a round of a side makes, through a recorder."""
        with Recorder(self.port) as recorder:
            ran = subprocess.run(self.command(side, recorder.port, before), stdin=subprocess.DEVNULL, stdout=subprocess.PIPE, timeout=SECONDS)
        kept = side[0].read_bytes() if side[0].exists() else b""
        return Made(ran.returncode, ran.stdout, recorder.requests, recorder.longest, kept)

    def compare(self, before):
        """What a round makes. Fails if Python makes other requests, prints other lines or keeps another file. The status may be another one than 0."""
        ours = self.made(self.ours, before)
        if ours.status == 0:
            theirs = self.made(self.theirs, before)
            assert theirs.status == 0, f"Python ended with status {theirs.status}"
            same("requests", ours.requests, theirs.requests)
            same("bytes of the file", ours.kept, theirs.kept)
            same("lines", ours.printed, theirs.printed)
        return ours

    def starts(self):
        """The starts of both sides over an empty input."""
        return [lambda: (self.program, "batch"), lambda: self.theirs[1]]

    def in_turn(self, before, runs):
        """The least processor time of each side beyond its start, and its greatest peak."""
        sides = [lambda side=side: self.command(side, self.port, before) for side in (self.ours, self.theirs)]
        ours, theirs, start, python = run_in_turn(sides + self.starts(), runs)
        return beyond(ours, start), beyond(theirs, python)

    def show(self, file, runs):
        """The least processor time of `jmap show` of the list of a file, beyond its start, and its greatest peak."""
        shown, start = run_in_turn([lambda: (self.program, "show", file, "all"), self.starts()[0]], runs)
        return beyond(shown, start)
