"""A server between a client and a server: it notes what is asked, and a test may change an answer, hold it back or lose it."""
import dataclasses
import http.client
import http.server
import json
import threading

SECONDS = 60


@dataclasses.dataclass
class Answer:
    """The status and the body of a response, of which the last bytes may be left unsent, and a field of its head or none.

    A field Connection with `close` ends the connection. With a field Transfer-Encoding the body is that which is sent.
    """

    status: int
    body: bytes
    unsent: int = 0
    field: tuple = ()

    def call(self):
        """The name, the arguments and the identifier of the response to the only call."""
        return json.loads(self.body)["methodResponses"][0]

    def with_call(self, *response):
        """The same Response, with this one response in it."""
        return Answer(self.status, json.dumps({**json.loads(self.body), "methodResponses": [response]}).encode())


class Between:
    """Passes requests on to the server at this port of this machine, until the end of a `with`.

    `asked` has what was asked since the last `begin`: the name and the arguments of the call, and of a request that is no call its path and None.
    """

    def __init__(self, port):
        self.upstream = port
        self.server = http.server.ThreadingHTTPServer(("127.0.0.1", 0), Handler)
        self.server.daemon_threads = True
        self.server.between = self
        self.port = self.server.server_address[1]
        self.begin()

    def begin(self, change=lambda number, name, answer: answer):
        """Forgets what was asked. From now on `change` gives what becomes of an answer, by the number of its request from 1 on and the name of
        what was asked; None: the connection ends without an answer."""
        self.asked = []
        self.change = change

    def names(self):
        return [name for name, _ in self.asked]

    def answer(self, handler, body):
        """What a request is answered."""
        asked = json.loads(body)["methodCalls"][0][:2] if body else [handler.path, None]
        self.asked.append(asked)
        number, change = len(self.asked), self.change
        line = http.client.HTTPConnection("127.0.0.1", self.upstream, timeout=SECONDS)
        line.request(handler.command, handler.path, body=body, headers={"Authorization": handler.headers["Authorization"]})
        response = line.getresponse()
        answer = Answer(response.status, response.read())
        line.close()
        return change(number, asked[0], answer)

    def __enter__(self):
        threading.Thread(target=self.server.serve_forever, args=(0.01,), daemon=True).start()
        return self

    def __exit__(self, *_):
        self.server.shutdown()
        self.server.server_close()


class Handler(http.server.BaseHTTPRequestHandler):
    protocol_version = "HTTP/1.1"
    disable_nagle_algorithm = True

    def do_GET(self):
        self.respond(None)

    def do_POST(self):
        self.respond(self.rfile.read(int(self.headers["Content-Length"])))

    def respond(self, body):
        answer = self.server.between.answer(self, body)
        if answer is None or answer.unsent:
            self.close_connection = True
        if answer is None:
            return
        self.send_response_only(answer.status)
        self.send_header("Content-Type", "application/json")
        if answer.field:
            self.send_header(*answer.field)
        if answer.field[:1] != ("Transfer-Encoding",):
            self.send_header("Content-Length", str(len(answer.body)))
        self.end_headers()
        try:
            self.wfile.write(answer.body[: len(answer.body) - answer.unsent])
        except ConnectionError:
            # (the client has gone)
            self.close_connection = True

    def log_message(self, *_):
        pass
