"""Rounds of `tools/soak`: clients work at once on nine names, and one order of their steps has to explain all that they were answered.

A request is one step, but for a PUT and a GET of a file that aren't refused. These are two: the Begin, at which a PUT takes its place and
a GET reads, and the End, at which a PUT stores. Between the two the request holds its file or its free name. A step lies between the
sending of its request and the coming of its answer; only the End of a GET may come later, before the next request of its client.

Some requests stop amid. A PUT that waits to be told to go on is begun by then, and ends after it has sent its body. A GET that waits
between the head and the body is begun by then, and where its file is longer than what lies on the way it ends after that.
"""
import hashlib
import json
import random
import socket
import threading
import time
from collections import namedtuple

from serving import Client

USER = "bob"
# The number of the user's root in the demonstration rows, where the root itself has nothing.
ROOT = 2
# A file that stays, longer than what the system takes from a server whose client doesn't read.
LONG, ROOM = ("long",), 1 << 16
with open("/proc/sys/net/ipv4/tcp_wmem") as wmem:
    LONG_LENGTH = int(wmem.read().split()[2]) + 16 * ROOM
NAMES = [("a",), ("b",), ("c",), ("x",), ("x", "a"), ("x", "b"), ("y",), ("y", "a"), ("y", "b")]
WEIGHTS = {"PUT": 30, "GET": 22, "DELETE": 11, "MKCOL": 8, "MOVE": 10, "COPY": 12, "listing": 7}
REQUESTS = 3
# The longest time in seconds for which a request stops, and for which one waits for another.
LONGEST_PAUSE, PATIENCE = 0.004, 90
# How long an answer may take on a machine that has much else to do.
SLOWEST = 300
# In one round of so many two clients begin with reading the long file side by side.
LONG_ROUNDS = 10
MOST_TRIES = 3_000_000

# `stop` is called amid the request, and `amid` is when that began and when it was over.
Ask = namedtuple("Ask", "method path target overwrite body expects stop", defaults=(None, True, None, False, None))
Told = namedtuple("Told", "ask sent got amid status what is_file")
Step = namedtuple("Step", "told is_end earliest latest")
# A folder has no digest.
Node = namedtuple("Node", "number length digest")
# A file by its number, or a free name by that of its folder; a file has no name here.
Key = namedtuple("Key", "number name")
# A key, alone or shared with others that read.
Hold = namedtuple("Hold", "key alone")


def file_of(number, body):
    return Node(number, len(body), hashlib.sha256(body).digest())


def is_under(path, top):
    return path[:len(top)] == top


class World:
    """What is there, by paths; the next number; and what each client holds."""

    def __init__(self, nodes, following, holds=()):
        self.nodes, self.following, self.holds = nodes, following, holds

    def key(self):
        return frozenset(self.nodes.items()), self.following, self.holds

    def is_folder(self, path):
        return path in self.nodes and self.nodes[path].digest is None

    def lines(self, path):
        """A listing: name, kind, size and number."""
        lines = []
        for place, node in sorted(self.nodes.items()):
            if place[:-1] == path and place:
                size = sum(other.length for under, other in self.nodes.items() if is_under(under, place))
                lines.append((place[-1], "file" if node.digest else "folder", size, node.number))
        return lines

    def key_at(self, path):
        """What a PUT or MKCOL to a path takes: the file that is there, or the free name."""
        return Key(self.nodes[path].number, None) if path in self.nodes else self.slot(path)

    def slot(self, path):
        return Key(self.nodes[path[:-1]].number, path[-1])

    def touches(self, ask):
        """Keys, or paths with all that is under them, and whether they are touched alone."""
        if ask.method == "GET":
            return [] if self.is_folder(ask.path) else [(self.key_at(ask.path), False)]
        if ask.method in ("PUT", "MKCOL"):
            return [(self.key_at(ask.path), True)]
        if ask.method == "DELETE":
            return [(ask.path, True)]
        touches = [(ask.path, ask.method == "MOVE"), (self.slot(ask.target), True)]
        return touches + [(ask.target, True)] if ask.target in self.nodes else touches

    def in_way(self, client, touches):
        """The keys that others hold and that clash with one of these."""
        return [hold.key for holder, hold in self.holds if holder != client
                if any((alone or hold.alone) and self.covers(touched, hold.key) for touched, alone in touches)]

    def covers(self, touched, key):
        if isinstance(touched, Key):
            return touched == key
        return is_under(next(path for path, node in self.nodes.items() if node.number == key.number), touched)

    def refusal(self, ask):
        """Why it is refused whatever others hold, or None."""
        source = ask.path in self.nodes
        if ask.method in ("GET", "DELETE", "MOVE", "COPY") and not source:
            return 404, {"reason": "not-found"}
        target = ask.target or ask.path
        if ask.method in ("PUT", "MKCOL", "MOVE", "COPY") and not self.is_folder(target[:-1]):
            return 409, {"reason": "no-parent"}
        if ask.method == "MKCOL" and source or ask.method == "PUT" and self.is_folder(ask.path):
            return 405, {"reason": "exists"}
        if ask.target is not None:
            if ask.path == target:
                return 403, {"cause": "same", "reason": "bad-target"}
            if is_under(target, ask.path) or is_under(ask.path, target):
                return 403, {"cause": "inside", "reason": "bad-target"}
            if target in self.nodes and not ask.overwrite:
                return 412, {"reason": "overwrite"}
        return None

    def changed(self, ask):
        """The world after what isn't refused, and its status."""
        target = ask.target or ask.path
        nodes = {path: node for path, node in self.nodes.items() if ask.method in ("PUT", "MKCOL") or not is_under(path, target)}
        following = self.following
        status = 204 if ask.method == "DELETE" or target in self.nodes else 201
        if ask.method == "MKCOL":
            nodes[target] = Node(following, 0, None)
        elif ask.method == "PUT":
            nodes[target] = file_of(self.nodes[target].number if target in self.nodes else following, ask.body)
        elif ask.method in ("MOVE", "COPY"):
            for path, node in sorted(item for item in self.nodes.items() if is_under(item[0], ask.path)):
                if ask.method == "MOVE":
                    del nodes[path]
                else:
                    node, following = node._replace(number=following), following + 1
                nodes[target + path[len(ask.path):]] = node
        if status == 201 and ask.method in ("MKCOL", "PUT"):
            following += 1
        return World(nodes, following, self.holds), status

    def holding(self, client, hold):
        others = tuple(one for one in self.holds if one[0] != client)
        return World(self.nodes, self.following, tuple(sorted(others + ((client, hold),), key=lambda one: one[0])) if hold else others)

    def after(self, client, step):
        """The world after a step that was answered so, or None where it can't have been."""
        told, ask = step.told, step.told.ask
        if step.is_end:
            world = self.holding(client, None)
            if ask.method == "GET":
                return world
            world, status = world.changed(ask)
            return world if told.status == status else None
        refused = self.refusal(ask)
        if refused:
            return self if (told.status, told.what) == refused else None
        in_way = self.in_way(client, self.touches(ask))
        if in_way or told.status == 423:
            return self if told.status == 423 and told.what in map(locked, in_way) else None
        return self.begun(client, told)

    def begun(self, client, told):
        """The world after a step that nothing refuses."""
        ask = told.ask
        if ask.method == "PUT":
            return self.holding(client, Hold(self.key_at(ask.path), True)) if told.status in (201, 204) else None
        if ask.method == "GET":
            node = self.nodes[ask.path]
            if node.digest is None:
                return self if told.status == 200 and not told.is_file and told.what == self.lines(ask.path) else None
            is_it = told.status == 200 and told.is_file and told.what == (node.length, node.digest)
            return self.holding(client, Hold(self.key_at(ask.path), False)) if is_it else None
        world, status = self.changed(ask)
        return world if told.status == status else None


def locked(key):
    """What a refusal says of a key that is in the way."""
    if key.name is None:
        return {"node": key.number, "reason": "locked"}
    return {"folder": key.number, "name": key.name, "reason": "locked"}


def steps_of(told):
    """The steps of a request, by how it was answered."""
    # Nobody waits for a body without bytes: such a PUT may be over before its client goes on.
    waits = told.amid and (told.is_file or told.ask.body)
    ask, (stopped, went_on) = told.ask, told.amid if waits else (told.got, told.sent)
    if ask.method == "PUT" and told.status in (201, 204):
        return [Step(told, False, told.sent, stopped if ask.expects else told.got), Step(told, True, went_on, told.got)]
    if told.is_file:
        earliest = went_on if told.what[0] == LONG_LENGTH else told.sent
        return [Step(told, False, told.sent, stopped), Step(told, True, earliest, float("inf"))]
    return [Step(told, False, told.sent, told.got)]


def explain(world, tellings):
    """An order of all steps, as pairs of a client and a step, that explains what each client was told; or None."""
    chains = [[step for told in telling for step in steps_of(told)] for telling in tellings]
    # When the first of a client's steps from one on has to be over.
    limits = [[min(step.latest for step in chain[at:]) for at in range(len(chain))] + [float("inf")] for chain in chains]
    failed, tries = set(), 0

    def search(world, at):
        nonlocal tries
        if all(place == len(chain) for place, chain in zip(at, chains)):
            return []
        key = at, world.key()
        if key in failed:
            return None
        limit = min(limits[client][place] for client, place in enumerate(at))
        for client in sorted(range(len(at)), key=lambda client: limits[client][at[client]]):
            if at[client] == len(chains[client]) or chains[client][at[client]].earliest > limit:
                continue
            tries += 1
            if tries > MOST_TRIES:
                raise TimeoutError("the search for an order takes too long")
            step = chains[client][at[client]]
            after = world.after(client, step)
            order = after and search(after, at[:client] + (at[client] + 1,) + at[client + 1:])
            if order is not None:
                return [(client, step)] + order
        failed.add(key)
        return None

    return search(world, (0,) * len(chains))


def ask_by_chance(chance):
    [method], path = chance.choices(list(WEIGHTS), WEIGHTS.values()), chance.choice(NAMES)
    target = chance.choice(NAMES) if method in ("MOVE", "COPY") else None
    if method == "listing":
        method, path = "GET", chance.choice([(), ("x",), ("y",)])
    body = chance.randbytes(chance.choice([0, 1, 9, 2_000])) if method == "PUT" else None
    pause = chance.random() * LONGEST_PAUSE
    stop = (lambda: time.sleep(pause)) if method in ("PUT", "GET") and chance.random() < 0.7 else None
    return Ask(method, path, target, chance.random() < 0.6, body, body is not None and chance.random() < 0.5, stop)


def send(client, ask):
    """Sends a request; what it was told, and when."""
    fields = {"Destination": list(ask.target), "Overwrite": "T" if ask.overwrite else "F"} if ask.target else {}
    amid = []

    def stop():
        amid.append(time.monotonic())
        ask.stop()
        amid.append(time.monotonic())

    sent = time.monotonic()
    answer = client.ask(ask.method, list(ask.path), ask.body, expect=ask.expects, amid=ask.stop and stop, **fields)
    got = time.monotonic()
    is_file = answer.fields.get("Content-Type") == "application/octet-stream"
    what = answer.body
    if is_file:
        what = len(answer.body), hashlib.sha256(answer.body).digest()
    elif answer.body:
        what = json.loads(answer.body)
        if "entries" in what:
            what = [(line["name"], line["kind"], line["size"], line["id"]) for line in what["entries"]]
    return Told(ask, sent, got, amid, answer.status, what, is_file)


def shown(told):
    ask = told.ask
    what = f"{ask.method} /{'/'.join(ask.path)}"
    if ask.target:
        what += f" to /{'/'.join(ask.target)}" + ("" if ask.overwrite else ", if free")
    if ask.body is not None:
        what += f" ({len(ask.body)} bytes)"
    return f"{what}: {told.status} " + (f"{told.what[0]} bytes" if told.is_file else f"{told.what or ''}")


def meeting():
    """What two requests call amid, so that each waits for the other."""
    both = threading.Barrier(2, timeout=PATIENCE)

    def wait():
        try:
            both.wait()
        except threading.BrokenBarrierError:
            pass
    return wait


class NarrowClient(Client):
    """A connection that takes little before it is read."""

    def connect(self):
        connection = super().connect()
        connection.setsockopt(socket.SOL_SOCKET, socket.SO_RCVBUF, ROOM)
        return connection


class Rounds:
    """Clients, each with a connection of its own, and one that lays out each round and looks at its end."""

    def __init__(self, port, clients, seed):
        self.first, self.seed = Client(port, USER, SLOWEST), seed
        self.clients = [NarrowClient(port, USER, SLOWEST) for _ in range(clients)]
        body = random.Random(seed).randbytes(LONG_LENGTH)
        self.long = file_of(None, body)
        told = self.do("PUT", LONG, body=body)
        assert told.status in (201, 204), shown(told)

    def do(self, method, path, target=None, body=None):
        """A request of the first client. What a GET of the round before still holds is waited for."""
        for _ in range(1000):
            told = send(self.first, Ask(method, path, target, True, body))
            if told.status != 423:
                return told
            time.sleep(0.001)
        raise AssertionError(f"it stays locked: {shown(told)}")

    def lay_out(self, chance):
        """Removes what is there but for the long file, and lays out some names by chance; the world then."""
        for name, _, _, _ in self.do("GET", ()).what:
            if (name,) != LONG:
                self.do("DELETE", (name,))
        for path in [path for path in NAMES[:5] if chance.random() < 0.6]:
            if path[0] == "x" and chance.random() < 0.8:
                self.do("MKCOL", path[:1])
            self.do("PUT", path, body=chance.randbytes(5))
        self.do("MKCOL", ("y",))
        nodes = {(): Node(ROOT, 0, None)}
        self.read((), nodes)
        return World(nodes, nodes[("y",)].number + 1)

    def read(self, path, nodes):
        for name, kind, size, number in self.do("GET", path).what:
            place = path + (name,)
            if kind == "folder":
                nodes[place] = Node(number, 0, None)
                self.read(place, nodes)
            elif size == LONG_LENGTH:
                nodes[place] = self.long._replace(number=number)
            else:
                nodes[place] = Node(number, *self.do("GET", place).what)

    def run(self, number):
        """One round: None where an order explains it, or else its story; how many requests it had, and how many found something locked."""
        chance = random.Random(f"{self.seed} round {number}")
        world = self.lay_out(chance)
        asks = [[ask_by_chance(chance) for _ in range(REQUESTS)] for _ in self.clients]
        if number % LONG_ROUNDS == 0 and len(asks) > 1:
            asks[0][0] = asks[1][0] = Ask("GET", LONG, stop=meeting())
        tellings, start = [[] for _ in asks], threading.Barrier(len(asks))

        def work(index):
            start.wait()
            for ask in asks[index]:
                sent = time.monotonic()
                try:
                    tellings[index].append(send(self.clients[index], ask))
                except OSError as error:
                    tellings[index].append(Told(ask, sent, time.monotonic(), [], None, repr(error), False))
                    return

        threads = [threading.Thread(target=work, args=(index,)) for index in range(len(asks))]
        for thread in threads:
            thread.start()
        for thread in threads:
            thread.join()
        tellings.append([send(self.first, Ask("GET", ()))])
        all_told = [told for telling in tellings for told in telling]
        is_whole = len(all_told) == REQUESTS * len(asks) + 1
        story = None if is_whole and explain(world, tellings) else self.story(number, world, tellings)
        return story, len(all_told), sum(told.status == 423 for told in all_told)

    @staticmethod
    def story(number, world, tellings):
        """What was there, and what each client was told, by when."""
        zero = min(told.sent for telling in tellings for told in telling)
        lines = [f"round {number}: no order explains it"]
        lines += [f"  /{'/'.join(path)} number {node.number}, {node.length} bytes" for path, node in sorted(world.nodes.items())]
        for client, telling in enumerate(tellings):
            for told in telling:
                sent, got = 1000 * (told.sent - zero), 1000 * (told.got - zero)
                lines.append(f"  client {client}, {sent:.2f} to {got:.2f} ms: {shown(told)}")
        return "\n".join(lines)

    def close(self):
        for client in [self.first, *self.clients]:
            client.close()
