"""Makes one round as `jmap sync` does, by Python's http.client, json and dictionaries: the same requests, the same file, the same lines.

    sync_like_jmap.py HOST PORT TOKEN FILE

It knows a server that answers as the rules say and does not change meanwhile, so it looks at no form, and fails where a state is another one.
Without arguments it ends once its modules are there.
"""
import http.client
import json
import os
import sys

USING = ["urn:ietf:params:jmap:core", "urn:ietf:params:jmap:mail"]
PROPERTIES = ["id", "blobId", "threadId", "mailboxIds", "keywords", "size", "receivedAt", "from", "subject", "preview", "hasAttachment"]
NAMES = {"mailbox": "Mailbox", "email": "Email", "thread": "Thread"}
MAX_CHANGES = MAX_IDS = 500
MAX_RESULTS = 1000


def text_of(value):
    return json.dumps(value, ensure_ascii=False, separators=(",", ":")).encode()


def number(one):
    return int(one[1:])


class Server:
    """A server that is asked over one connection, about one account."""

    def __init__(self, host, port, token):
        self.line = http.client.HTTPConnection(host, int(port), timeout=60)
        self.head = {"Authorization": f"Bearer {token}"}

    def ask(self, method, path, body=None, more=()):
        self.line.request(method, path, body=body, headers=self.head | dict(more))
        response = self.line.getresponse()
        data = response.read()
        assert response.status == 200, response.status
        return json.loads(data)

    def begin(self, account):
        """Asks for the Session, and gives the account: the one that is kept, or the primary one."""
        session = self.ask("GET", "/.well-known/jmap")
        url = session["apiUrl"]
        self.path = url if url.startswith("/") else "/" + url.partition("://")[2].partition("/")[2]
        self.account = session["primaryAccounts"][USING[1]] if account is None else account
        assert self.account in session["accounts"], "the account is not there"
        return self.account

    def call(self, name, arguments):
        body = text_of({"methodCalls": [[name, {"accountId": self.account, **arguments}, "0"]], "using": USING})
        ((answered, reply, _),) = self.ask("POST", self.path, body, {"Content-Type": "application/json"})["methodResponses"]
        assert answered == name, reply
        return reply

    def get(self, kind, ids):
        more = {"properties": PROPERTIES} if kind == "email" else {}
        return self.call(f"{NAMES[kind]}/get", {"ids": ids, **more})

    def records(self, kind, ids, state):
        """The objects of these records under their ids, and the ids of those that are not there."""
        found, missing = {}, []
        for first in range(0, len(ids), MAX_IDS):
            reply = self.get(kind, ids[first : first + MAX_IDS])
            assert reply["state"] == state, "another state"
            found.update((record["id"], record) for record in reply["list"])
            missing += reply["notFound"]
        return found, missing

    def results(self, name, query):
        """All ids of a query and its state. A page with fewer ids than were asked for is the last one. The arguments are in order of their names:
        `query` has those before `limit` and those after `position`."""
        ids, states = [], set()
        while True:
            before, after = query
            page = self.call(name, {**before, "limit": MAX_RESULTS, "position": len(ids), **after})
            ids += page["ids"]
            states.add(page["queryState"])
            if len(page["ids"]) < MAX_RESULTS:
                (state,) = states
                return ids, state


def in_order(records):
    return dict(sorted(records.items()))


def load(server, kind, cache):
    if kind == "thread":
        state = server.get("thread", [])["state"]
        assert server.get("email", [])["state"] == cache["email"]["state"], "another state"
        ids = sorted({email["threadId"] for email in cache["email"]["list"].values()}, key=number)
    else:
        ids, state = server.results(f"{NAMES[kind]}/query", ({}, {}))
    cache[kind] = {"list": in_order(server.records(kind, ids, state)[0]), "state": state}


def follow(server, kind, kept):
    asked, dropped, more = set(), set(), True
    while more:
        page = server.call(f"{NAMES[kind]}/changes", {"maxChanges": MAX_CHANGES, "sinceState": kept["state"]})
        there = {*page["created"], *page["updated"]}
        asked = (asked | there) - set(page["destroyed"])
        dropped = (dropped - there) | set(page["destroyed"])
        kept["state"], more = page["newState"], page["hasMoreChanges"]
    found, missing = server.records(kind, sorted(asked, key=number), kept["state"])
    for one in (*dropped, *missing):
        kept["list"].pop(one, None)
    if found:
        kept["list"] = in_order(kept["list"] | found)


def query_of(one):
    return {"collapseThreads": one["collapse"], "filter": one["filter"]}, {"sort": one["sort"]}


def follow_list(server, one):
    before, after = query_of(one)
    changed = server.call("Email/queryChanges", {**before, "sinceQueryState": one["state"], **after})
    removed = set(changed["removed"])
    one["ids"] = [email for email in one["ids"] if email not in removed]
    for item in changed["added"]:
        one["ids"].insert(item["index"], item["id"])
    one["state"] = changed["newQueryState"]


def make_round(server, cache):
    cache["account"] = server.begin(cache["account"])
    for kind in NAMES:
        if cache[kind]["state"] is None:
            load(server, kind, cache)
        else:
            follow(server, kind, cache[kind])
    for one in cache["lists"]:
        if one["state"] is None:
            one["ids"], one["state"] = server.results("Email/query", query_of(one))
        else:
            follow_list(server, one)


def new_cache():
    kept = {kind: {"list": {}, "state": None} for kind in NAMES}
    newest = [{"isAscending": False, "property": "receivedAt"}]
    everything = {"collapse": True, "filter": None, "ids": [], "name": "all", "sort": newest, "state": None}
    return {"account": None, "email": kept["email"], "lists": [everything], "mailbox": kept["mailbox"], "thread": kept["thread"]}


def read_cache(name):
    try:
        with open(name, "rb") as file:
            return json.loads(file.read())
    except FileNotFoundError:
        return new_cache()


def write_cache(name, cache):
    """Writes to a new file, which is brought to the disk and takes the place of the old one."""
    with open(f"{name}.new", "wb") as file:
        file.write(text_of(cache))
        file.flush()
        os.fsync(file.fileno())
    os.rename(f"{name}.new", name)
    folder = os.open(os.path.dirname(os.path.abspath(name)), os.O_RDONLY)
    os.fsync(folder)
    os.close(folder)


def main(host, port, token, name):
    cache = read_cache(name)
    make_round(Server(host, port, token), cache)
    write_cache(name, cache)
    for kind, plural in (("mailbox", "mailboxes"), ("thread", "threads"), ("email", "emails")):
        print(plural, len(cache[kind]["list"]))
    for one in cache["lists"]:
        print("list", one["name"], len(one["ids"]))


if sys.argv[1:]:
    main(*sys.argv[1:])
