"""The part of `tools/soak --shares`: members share folders and files, also by links, pass them on, and use what is shared with them, all at
once; and so do strangers who come by the links.

The clients work in scenes, four of them in one: folders of one member, what is shared of them, and a folder of each other member. What
changes shares, mounts, folders, or files that stay, is made one at a time in a scene, and its answer has to be the model's (chains.py).
So a scene has a world after each change, and the moments at which the change was sent and answered say when it may have been that.
Beside the changes, all at once, files that come and go are read, stored, moved, copied and removed, and folders and shares are listed:
one world of those that there may have been has to explain each answer, and of a PUT one its Begin and that one or a later one its End.
A file that is read has to be one that was stored under its name in its folder, or under one that it was moved or copied from.

Of some PUTs the head is sent, which is granted, and then a share that lets in is ended or narrowed: once that was answered the body is
sent, and has to be refused with the first broken link. A GET that was granted before goes on.

Ended shares stay in the store, and the server looks at all of them: when a scene has had some, it begins with new folders, and when
more were made than the time that has passed allows, no share is made or ended for a while.
"""
import itertools
import json
import random
import threading
import time
from collections import namedtuple
from contextlib import contextmanager
from urllib.parse import quote, urlencode

from chains import ALL, CREATE, READ, SHARE, UPDATE, Ask, Link, Node, NotModelled, Refused, World
from rounds import LONG_LENGTH, NarrowClient
from serving import Client

USERS = ["alice", "bob", "carol"]
PUBLIC = "/public.php/dav/files/"
SHARES = "/ocs/v2.php/apps/files_sharing/api/v1/shares"
IN_A_SCENE = 4
# Files that come and go, and what the names of the others end in, behind that of their scene.
COMING, FOLDERS, FILES, LATE = ["f0", "f1", "f2"], ["a", "b", "c d"], ["x.txt", "y"], "late"
# How many shares a scene has before it begins anew, and how many the whole run makes: a store has room for 65,536.
MOST_IN_A_SCENE, MOST_SHARES = 40, 16_000
MOST_NODES, MOST_NAMES, KEPT_WORLDS = 24, 6, 2_000
# How much is asked by links, and how many of the new shares are such.
BY_LINKS, LINKS = 0.2, 0.25
# The longest time in seconds for which a PUT waits before its body.
LONGEST_PAUSE = 0.004
USES = {"GET": 30, "PUT": 25, "listing": 15, "MOVE": 7, "COPY": 7, "LIST": 6, "SHOW": 5, "DELETE": 3}
CHANGES = {"SET": 45, "NEW": 12, "PUT": 12, "rename": 8, "MOVE": 12, "MKCOL": 6, "END": 2, "COPY": 4, "leave": 3, "DELETE": 3}
# Permissions by chance: mostly all.
SOME = [ALL] * 8 + [SHARE | READ] * 2 + [15, 7, 3, READ]

# What a request was told: when it was sent, until when it may have begun, from when on it may have ended, and when the answer came.
Told = namedtuple("Told", "ask sent begun went_on got status what")
# A world, from when on it may have been there, and until when.
Era = namedtuple("Era", "begun over world")


def plain(answer, ask):
    """What an answer says: an object, a list or bytes. That of shares stands in an envelope, which has to be right."""
    if answer.fields.get("Content-Type") != "application/json":
        return answer.body
    what = json.loads(answer.body)
    if ask.method not in ("NEW", "SET", "END", "SHOW", "LIST"):
        return what
    data, meta = what["ocs"]["data"], what["ocs"]["meta"]
    wanted = {"message": "OK", "status": "ok", "statuscode": 200}
    if answer.status != 200:
        wanted = {"message": data["reason"], "status": "failure", "statuscode": answer.status}
    return data if meta == wanted and list(what) == ["ocs"] else what


def name_of(user):
    """Whose token is sent. By a link it isn't looked at."""
    return "nobody" if isinstance(user, Link) else user


def placed(user, path):
    """A path, which is a list of names; or by a link its target."""
    return f"{PUBLIC}{user.token}/{'/'.join(quote(name, safe='') for name in path)}" if isinstance(user, Link) else list(path)


def request(ask):
    """The method, the path or target, the body and the fields of a request."""
    if ask.method in ("NEW", "SET", "END", "SHOW", "LIST"):
        target, form, fields = SHARES, None, {"OCS-APIRequest": "true"}
        if ask.method == "NEW":
            whom = {"shareType": 0, "shareWith": ask.receiver} if ask.receiver else {"shareType": 3}
            form = {"path": "/" + "/".join(ask.path), **whom, "permissions": ask.permissions}
        elif ask.method == "LIST":
            target += "?" + urlencode({"path": "/" + "/".join(ask.path), **({"shared_with_me": "true"} if ask.receiver else {})})
        else:
            target += f"/{ask.share}"
            form = {"permissions": ask.permissions} if ask.method == "SET" else None
        method = {"NEW": "POST", "SET": "PUT", "END": "DELETE"}.get(ask.method, "GET")
        return method, target, form and urlencode(form).encode(), fields
    fields = {"Destination": placed(ask.user, ask.target), "Overwrite": "T" if ask.overwrite else "F"} if ask.target is not None else {}
    return ask.method, placed(ask.user, ask.path), ask.body, fields


def shown(ask):
    what = f"{ask.user}: {ask.method} " + ("" if ask.path is None else "/" + "/".join(ask.path))
    what += f" to /{'/'.join(ask.target)}" + ("" if ask.overwrite else ", if free") if ask.target is not None else ""
    what += "" if ask.body is None else f" ({len(ask.body)} bytes)"
    return what + "".join(f" {name} {value}" for name, value in ask._asdict().items()
                          if name in ("share", "receiver", "permissions") and value is not None)


def wanted_of(world, ask):
    """A status and an object: what a request that changes something is told; no object where it isn't refused."""
    try:
        if ask.method in ("NEW", "SET", "END"):
            world.decide_share(ask)
            return 200, None
        return world.decide(ask)[0], None
    except Refused as refused:
        return refused.status, refused.told


def refused_at_end(world, user, mount, act):
    """What the End of a PUT is refused with; or None."""
    try:
        world.need(user, mount)
        world.need(user, mount, act)
    except Refused as refused:
        return refused.status, refused.told
    return None


def told_share(share):
    """What is told of a share, but for the number of what is shared."""
    return {"expiration": None, "id": str(share.number), "parent": share.parent and str(share.parent), "permissions": share.permissions,
            "share_type": 3 if share.token else 0, "share_with": share.receiver, "token": share.token, "uid_file_owner": share.owner, "uid_owner": share.giver}


def is_locked(status, what):
    """Whether a request is told that something is held. Whether it was isn't known here."""
    return status == 423 and what.get("reason") == "locked" and set(what) in ({"node", "reason"}, {"folder", "name", "reason"})


class Scene:
    """Folders with their shares: the worlds that they were, and what was stored."""

    def __init__(self, soak, number, owner):
        self.soak, self.number, self.owner = soak, number, owner
        self.chance, self.fresh = random.Random(f"{soak.options.seed} scene {number}"), itertools.count(1)
        # One who changes something holds the lock; the guard is held for a moment.
        self.lock, self.guard = threading.Lock(), threading.Lock()
        self.world, self.prefix, self.turn = World({}, {}, {}), "", 0
        self.eras, self.pending, self.unjudged = [Era(0, float("inf"), self.world)], None, []
        # The server's numbers of nodes; what was stored by folder and name, and where else it may come from; what isn't found there.
        self.numbers, self.stored, self.sources, self.unfound = {}, {}, {}, []
        self.changes, self.late, self.went_on, self.locked = 0, 0, 0, 0
        self.long = random.Random(f"{soak.options.seed} long").randbytes(LONG_LENGTH)

    def wrong(self, what):
        self.soak.wrong.append(f"scene {self.number}: {what}")

    @contextmanager
    def changing(self, client):
        """While it lasts no other client changes the scene."""
        # A connection on which nothing is asked holds a worker.
        client.close()
        with self.lock:
            yield

    def can_share(self):
        return self.soak.shares_made < MOST_SHARES * min(1, self.soak.passed() + 0.05)

    # Changes

    def change(self, ask, once=False):
        """Makes a change, by a connection of its own, and whether it was made. With `once` it isn't made where the server is full."""
        try:
            wanted = wanted_of(self.world, ask)
        except NotModelled:
            return False
        client = Client(self.soak.server.port, name_of(ask.user))
        self.begin()
        try:
            method, path, body, fields = request(ask)
            answer = (self.soak.ask_once if once else self.soak.ask)(client, method, path, body, **fields)
        finally:
            client.close()
        if answer is None:
            self.end()
            return False
        return self.changed(ask, wanted, answer.status, plain(answer, ask))

    def begin(self):
        with self.guard:
            self.pending = time.monotonic()

    def changed(self, ask, wanted, status, what):
        """Looks at the answer to a change, and whether it was made."""
        is_made, number, pairs = wanted[1] is None and status == wanted[0], None, []
        if is_locked(status, what) and wanted[1] is None and ask.method not in ("NEW", "SET", "END"):
            self.locked += 1
        elif status != wanted[0] or wanted[1] is not None and what != wanted[1]:
            self.wrong(f"{shown(ask)}: {status} {what}, but it should be {wanted}\n{self.story()}")
        if is_made:
            number = int(what["id"]) if ask.method == "NEW" else None
            world, pairs = self.world.after(ask, self.fresh, number, what["token"] if number else None)
            if ask.method in ("NEW", "SET") and not self.is_told(world.shares[number or ask.share], what):
                self.wrong(f"{shown(ask)}: {what}\n{self.story()}")
            if ask.method == "NEW":
                self.soak.shares_made += 1
        self.end(world if is_made else None, pairs)
        return is_made

    def end(self, world=None, pairs=()):
        """The change that was begun is over: requests that waited for what it came to are looked at."""
        for source, target in pairs:
            for name in COMING:
                self.sources.setdefault((target, name), set()).add((source, name))
        with self.guard:
            if world:
                self.eras[-1] = self.eras[-1]._replace(over=time.monotonic())
                self.eras.append(Era(self.pending, float("inf"), world))
                self.world, self.changes = world, self.changes + 1
                if len(self.eras) > 2 * KEPT_WORLDS:
                    del self.eras[:KEPT_WORLDS]
            self.pending, waiting, self.unjudged = None, self.unjudged, []
            waiting = [(told, self.during(told)) for told in waiting]
        for told, eras in waiting:
            self.judge(told, eras)

    def is_told(self, share, what):
        """Whether a share is told right; a node keeps its number."""
        what = dict(what)
        source = what.pop("file_source", None)
        return what == told_share(share) and self.numbers.setdefault(share.node, source) == source

    def story(self):
        world = self.world
        lines = [f"  node {number}: {world.path(number)}" + ("" if node.body is None else f", {len(node.body)} bytes")
                 for number, node in world.nodes.items()]
        lines += [f"  {share}" for share in world.shares.values()]
        return "\n".join(lines + [f"  mount of {user}, node {node}: {mount}" for (user, node), mount in world.mounts.items()])

    # What doesn't change the scene

    def tell(self, told):
        """A request was answered: it is looked at once it is known what was changed meanwhile."""
        with self.guard:
            if self.pending is not None and self.pending <= told.got:
                return self.unjudged.append(told)
            eras = self.during(told)
        self.judge(told, eras)

    def during(self, told):
        """The eras that a request may have met."""
        found = []
        for era in reversed(self.eras):
            if era.over < told.sent:
                break
            if era.begun <= told.got:
                found.insert(0, era)
        return found

    def judge(self, told, eras):
        self.locked += is_locked(told.status, told.what)
        explains = {"SHOW": self.is_shown, "LIST": self.is_shown, "PUT": self.is_put}.get(told.ask.method, self.is_step)
        if not explains(told, eras):
            lines = [f"{shown(told.ask)}: {told.status} {str(told.what)[:500]}, which none of {len(eras)} worlds explains"]
            for era in eras[-3:]:
                begun, over = era.begun - told.sent, era.over - told.sent
                lines.append(f" from {begun:.6f} to {over:.6f} after it was sent: {self.said(told.ask, era.world)}")
            self.wrong("\n".join(lines + [self.story()]))

    @staticmethod
    def said(ask, world):
        if ask.method not in ("SHOW", "LIST"):
            return [outcome[:2] for outcome in outcomes(world, ask)]
        try:
            return world.shown(ask)
        except Refused as refused:
            return refused.status, refused.told

    def is_shown(self, told, eras):
        for era in eras:
            try:
                shares = era.world.shown(told.ask)
            except Refused as refused:
                if (told.status, told.what) == (refused.status, refused.told):
                    return True
                continue
            what = told.what if told.ask.method == "LIST" else [told.what]
            if told.status == 200 and len(what) == len(shares) and all(map(self.is_told, shares, what)):
                return True
        return False

    def is_put(self, told, eras):
        """Whether one world explains the Begin of a PUT, and that one or a later one its End."""
        places, is_right = set(), False
        for number, era in enumerate(eras):
            if era.begun > told.begun:
                break
            for status, refusal, _, target in outcomes(era.world, told.ask):
                if refusal or is_locked(told.status, told.what):
                    is_right = is_right or not refusal or (told.status, told.what) == (status, refusal)
                    continue
                for later in eras[number:]:
                    act = UPDATE if status == 204 else CREATE
                    end = refused_at_end(later.world, told.ask.user, target.mount, act) or (status, b"")
                    if later.over >= told.went_on and (told.status, told.what) == end:
                        is_right = True
                        places |= {(target.at, target.rest[0])} if told.status == status else set()
        with self.guard:
            for place in places:
                self.stored.setdefault(place, set()).add(hash(told.ask.body))
        return is_right

    def is_step(self, told, eras):
        """Whether a world explains a request that is one step, and so does that of a GET, which goes on."""
        places, pairs, is_right = set(), set(), False
        for era in eras:
            for status, refusal, source, target in outcomes(era.world, told.ask):
                if refusal or is_locked(told.status, told.what):
                    is_right = is_right or not refusal or (told.status, told.what) == (status, refusal)
                elif told.status == status and self.is_what(told, era.world, source):
                    is_right = True
                    places |= {(source.at, source.rest[0])} if source.rest else set()
                    pairs |= {((target.at, target.rest[0]), (source.at, source.rest[0]))} if target else set()
        with self.guard:
            for target, source in pairs:
                self.sources.setdefault(target, set()).add(source)
            if told.ask.method == "GET" and places and not self.is_stored(places, hash(told.what)):
                self.unfound.append((places, hash(told.what), f"{shown(told.ask)}: {told.what[:50]!r}.. was never stored there"))
        return is_right

    def is_stored(self, places, key):
        """Whether something was stored at one of the places, or where what is there may come from."""
        places, seen = list(places), set(places)
        for place in places:
            if key in self.stored.get(place, ()):
                return True
            more = self.sources.get(place, set()) - seen
            places += more
            seen |= more
        return False

    def is_what(self, told, world, source):
        """Whether what was told fits a step that isn't refused."""
        if told.ask.method != "GET":
            return told.what == b""
        if source.rest:
            return isinstance(told.what, bytes)
        if not world.is_folder(source.at):
            return told.what == world.nodes[source.at].body
        return isinstance(told.what, dict) and self.is_listed(told.what["entries"], told.ask.user, world, source)

    def is_listed(self, entries, user, world, place):
        """Whether a listing is right. A root has more than what is the scene's, and its folders have files that come and go."""
        lines = {line[0]: line[1:] for line in world.lines(user, place)}
        names = [entry["name"] for entry in entries]
        if names != sorted(set(names), key=str.encode) or not set(lines) <= set(names):
            return False
        for entry in entries:
            name, told = entry["name"], (entry["kind"], entry["owner"], entry["permissions"])
            if name in lines:
                *wanted, number = lines[name]
                body = world.nodes[number].body
                is_it = self.numbers.get(number, entry["id"]) == entry["id"] and (body is None or entry["size"] == len(body))
            elif place.at == user and not name.startswith(f"s{self.number}-"):
                continue
            else:
                wanted, is_it = ("file", world.owner(place.at), world.permissions(user, place.mount)), name in COMING
            if told != tuple(wanted) or not is_it:
                return False
        return True

    def finish(self):
        """At the end all is known that was stored."""
        for places, key, what in self.unfound:
            if not self.is_stored(places, key):
                self.wrong(what)

    # Laying out

    def renew(self):
        """Removes all that the scene has, and lays out new folders with three shares."""
        while not self.soak.wrong and (paths := [(user, path) for user in USERS for path, _ in self.world.paths(user) if len(path) == 1]):
            user, path = self.chance.choice(paths)
            if not self.change(Ask(user, "DELETE", path)):
                time.sleep(0.001)
        self.begin()
        self.end(World({}, {}, {}))
        self.turn += 1
        self.prefix = prefix = f"s{self.number}-{self.turn}"
        others = [user for user in USERS if user != self.owner]
        top, inner = (prefix,), (prefix, f"{prefix} a")
        for path in [top, inner, (*inner, f"{prefix} b")]:
            self.change(Ask(self.owner, "MKCOL", path))
        self.change(Ask(self.owner, "PUT", (*inner, f"{prefix} x.txt"), body=b"first"))
        self.take_long()
        for user in USERS:
            self.change(Ask(user, "MKCOL", (f"{prefix} home",)))
        self.change(Ask(self.owner, "NEW", top, receiver=others[0], permissions=ALL))
        for path in (inner, (*inner, f"{prefix} b")):
            self.change(Ask(others[0], "NEW", path, receiver=others[1], permissions=ALL))

    def take_long(self):
        """Puts the long file into the first folder by a COPY, which stores no bytes again. It is stored once, in the owner's root."""
        client, [top] = Client(self.soak.server.port, self.owner), self.world.inside(self.owner)
        name, kept = f"{self.prefix} long", f"long of scene {self.number}"
        if self.turn == 1:
            assert self.soak.ask(client, "PUT", [kept], self.long).status == 201, "the long file isn't stored"
        self.begin()
        answer = self.soak.ask(client, "COPY", [kept], Destination=[self.prefix, name])
        assert answer.status == 201, f"the long file isn't copied: {answer}"
        client.close()
        self.end(World({**self.world.nodes, next(self.fresh): Node(top, name, self.long)}, self.world.shares, self.world.mounts))


def outcomes(world, ask):
    """What a world says to a request about files, for whatever files come and go: a status, an object where it is refused, the source
    and the target."""
    # Only a MOVE or COPY has two places.
    paths = ask.path, ask.path if ask.target is None else ask.target
    choices = [(False, True) if set(path[-1:]) & set(COMING) else (False,) for path in paths]
    for has in itertools.product(*choices) if ask.target is not None else zip(*choices):
        try:
            status, source, target = world.decide(ask, has)
            yield status, None, source, target
        except Refused as refused:
            yield refused.status, refused.told, None, None


class Member:
    """A client, and the scene that it works in."""

    def __init__(self, scene, number, user):
        self.scene, self.soak, self.number, self.user = scene, scene.soak, number, user
        self.chance, self.client = random.Random(f"{scene.soak.options.seed} {number}"), Client(scene.soak.server.port, user)

    def run(self):
        try:
            while self.soak.passed() < 1 and not self.soak.wrong:
                self.chance.choices([self.use, self.change, self.revoke], [70, 22, 8])[0]()
        except BaseException as error:
            self.soak.wrong.append(f"client {self.number}: {error!r}")
            raise
        finally:
            self.client.close()

    def send(self, ask, client, expect=False, amid=None):
        """A request that changes nothing of the scene's world."""
        method, path, body, fields = request(ask)
        moments = []

        def stop():
            moments.append(time.monotonic())
            amid()
            moments.append(time.monotonic())

        sent = time.monotonic()
        answer = self.soak.ask(client, method, path, body, expect=expect, amid=amid and stop, **fields)
        got = time.monotonic()
        begun, went_on = moments[-2:] or (got, sent)
        self.scene.tell(Told(ask, sent, begun, went_on, got, answer.status, plain(answer, ask)))

    # What comes and goes

    def use(self):
        ask, pause = self.ask_by_chance(self.scene.world), self.chance.random() * LONGEST_PAUSE
        # A PUT without bytes may be over before its client goes on.
        waits = ask.method == "PUT" and len(ask.body) > 0 and self.chance.random() < 0.3
        self.send(ask, self.client, waits, (lambda: time.sleep(pause)) if waits else None)

    def ask_by_chance(self, world):
        chance, user = self.chance, self.user
        [method] = chance.choices(list(USES), USES.values())
        if method == "SHOW" and world.shares:
            return Ask(user, "SHOW", share=chance.choice(list(world.shares)))
        if method != "LIST" and world.links() and chance.random() < BY_LINKS:
            user = chance.choice(world.links())
        paths = world.paths(user)
        if not paths or method == "SHOW" or method == "listing" and chance.random() < 0.2:
            return Ask(user, "GET", ())
        path, at = chance.choice(paths)
        is_file = at in world.nodes and not world.is_folder(at)
        if method == "LIST":
            return Ask(user, "LIST", path, receiver=chance.choice([None, user]))
        if method == "listing" or method == "GET" and is_file:
            is_long = is_file and len(world.nodes[at].body) == LONG_LENGTH
            return Ask(user, "GET", path if not is_long or chance.random() < 0.02 else path[:1])
        name = chance.choice(COMING) if chance.random() < 0.97 else "nothing"
        target = (*chance.choice(paths)[0], chance.choice(COMING)) if method in ("MOVE", "COPY") else None
        body = chance.randbytes(chance.choice([0, 9, 200, 2_000])) if method == "PUT" and name in COMING else None
        method = "GET" if name not in COMING else method
        return Ask(user, method, (*path, name), target, chance.random() < 0.6, body)

    # Changes

    def change(self):
        scene = self.scene
        with scene.changing(self.client):
            if not scene.world.nodes or len(scene.world.shares) >= MOST_IN_A_SCENE:
                return scene.renew()
            ask = self.change_by_chance(scene.world)
            if ask:
                scene.change(ask)

    def change_by_chance(self, world):
        chance, user, paths = self.chance, self.user, world.paths(self.user)
        [method] = chance.choices(list(CHANGES), CHANGES.values())
        if method in ("PUT", "MOVE", "MKCOL", "COPY", "DELETE") and world.links() and chance.random() < BY_LINKS:
            return self.kept_by_chance(world, method, user := chance.choice(world.links()), world.paths(user))
        if method in ("NEW", "END") and not self.scene.can_share():
            method = "SET"
        if method in ("SET", "END"):
            shares = [share.number for share in world.shares.values()
                      if not share.ended and world.is_of(share, user) or chance.random() < 0.05]
            some = chance.choice(SOME) if chance.random() < 0.8 else chance.randrange(1, ALL + 1)
            return Ask(user, method, share=chance.choice(shares), permissions=some if method == "SET" else None) if shares else None
        mounts = [path for path, at in paths if len(path) == 1 and (user, path[0]) in world.called]
        if method in ("leave", "rename"):
            free = (f"{self.scene.prefix} m{chance.randrange(4)}",)
            target = free if chance.random() < 0.8 else chance.choice(paths)[0][:1] if paths else free
            found = Ask(user, "MOVE", None, target) if method == "rename" else Ask(user, "DELETE")
            return found._replace(path=chance.choice(mounts)) if mounts else None
        if method == "NEW":
            receiver = None if chance.random() < LINKS else chance.choice(USERS)
            ask = Ask(user, "NEW", receiver=receiver, permissions=chance.choice(SOME))
            return ask._replace(path=chance.choice(paths)[0]) if paths else None
        return self.kept_by_chance(world, method, user, paths)

    def kept_by_chance(self, world, method, user, paths):
        """A change of folders and of files that stay."""
        chance, prefix = self.chance, self.scene.prefix
        if len(world.nodes) > MOST_NODES and method != "MOVE":
            method = "DELETE"
        folders = [path for path, at in paths if at not in world.nodes or world.is_folder(at)]
        files = [path for path, at in paths if at in world.nodes and not world.is_folder(at) and len(world.nodes[at].body) < LONG_LENGTH]
        deep = [path for path, at in paths if len(path) > (0 if isinstance(user, Link) else 1) or not path and chance.random() < 0.1]
        if not folders:
            return None
        folder = chance.choice(folders if chance.random() < 0.8 else [path for path in folders if len(path) <= 1])
        if method == "MKCOL":
            ask = Ask(user, "MKCOL", (*folder, f"{prefix} {chance.choice(FOLDERS)}"))
        elif method == "PUT":
            path = chance.choice(files) if files and chance.random() < 0.6 else (*folder, f"{prefix} {chance.choice(FILES)}")
            ask = Ask(user, "PUT", path, body=chance.randbytes(chance.randrange(300)))
        elif not deep:
            return None
        else:
            path = chance.choice(deep)
            name = path[-1] if path and chance.random() < 0.6 else f"{prefix} {chance.choice(FILES if path in files else FOLDERS)}"
            target = () if isinstance(user, Link) and chance.random() < 0.05 else (*folder, name)
            ask = Ask(user, method, path, None if method == "DELETE" else target, chance.random() < 0.6)
        return ask if len(ask.target or ask.path) <= MOST_NAMES else None

    # What is revoked amid a request

    def revoke(self):
        scene, chance = self.scene, self.chance
        with scene.changing(self.client):
            method = "GET" if chance.random() < 0.06 else "PUT"
            plan = self.plan(scene.world, method)
            if plan is None:
                return self.tend(scene.world)
            ask, place, act, revocation = plan
            share = scene.world.shares[revocation.share]
            if (self.get_goes_on if method == "GET" else self.put_ends_late)(ask, place, act, revocation) and chance.random() < 0.85:
                self.restore(share, revocation)

    def plan(self, world, method):
        """A request by a mount that is granted, the place and the act that it is granted for, and a change after which it isn't."""
        chance, scene = self.chance, self.scene
        for _ in range(20):
            user = chance.choice(USERS + world.links())
            paths = [(path, at) for path, at in world.paths(user) if at in world.nodes and world.owner(at) != user]
            if method == "GET":
                paths = [(path, at) for path, at in paths if world.nodes[at].body is scene.long]
            if not paths:
                continue
            path, at = chance.choice(paths)
            if method == "PUT" and world.is_folder(at):
                path += (f"{scene.prefix} {LATE}",)
            ask = Ask(user, method, path, body=chance.randbytes(1 + chance.randrange(300)) if method == "PUT" else None)
            status, refusal, source, target = next(outcomes(world, ask))
            place = source or target
            if refusal or method == "PUT" and at in world.nodes and world.nodes[at].body is scene.long:
                continue
            act = READ if method == "GET" else UPDATE if status == 204 else CREATE
            for revocation in self.revocations(world, user, place.mount, act):
                if wanted_of(world, revocation)[1] is None:
                    after, _ = world.after(revocation, None)
                    if refused_at_end(after, user, place.mount, act):
                        return ask, place, act, revocation
        return None

    def revocations(self, world, user, mount, act):
        """Changes of the shares that allow an act by a mount, in an order by chance."""
        chance, asks = self.chance, []
        for number in world.received[user, mount]:
            for link in [] if world.broken(number, act) else world.chain(number):
                by = chance.choice([link.giver, link.owner])
                if chance.random() < 0.1 and self.scene.can_share():
                    asks.append(Ask(by, "END", share=link.number))
                asks += [Ask(by, "SET", share=link.number, permissions=READ | link.permissions & ~lost)
                         for lost in (act, SHARE, act | SHARE)]
        chance.shuffle(asks)
        return asks

    def put_ends_late(self, ask, place, act, revocation):
        """Sends the head of a PUT, has it granted and then revoked, and sends the body. Whether it was revoked."""
        scene, revoked, client, runs = self.scene, [], Client(self.soak.server.port, name_of(ask.user)), self.soak.server.runs()
        granted = wanted_of(scene.world, ask)

        def amid():
            revoked.append(scene.change(revocation, once=True))
            scene.begin()

        answer = self.soak.ask_once(client, "PUT", placed(ask.user, ask.path), ask.body, expect=True, amid=amid)
        client.close()
        if answer is None:
            # A run that ends waits five seconds for what was granted.
            assert not revoked or self.soak.has_ended(runs), f"{shown(ask)}: it broke off behind its Begin"
            return False
        if not revoked:
            scene.begin()
            assert answer.status != granted[0], f"{shown(ask)}: {answer} before the body was sent"
            return scene.changed(ask, granted, answer.status, plain(answer, ask))
        wanted = refused_at_end(scene.world, ask.user, place.mount, act) or granted
        scene.changed(ask, wanted, answer.status, plain(answer, ask))
        scene.late += revoked[0] and answer.status == wanted[0] == 403
        owner, path = scene.world.path(place.at)
        looker = Client(self.soak.server.port, owner)
        self.send(Ask(owner, "GET", path + place.rest), looker)
        looker.close()
        return revoked[0]

    def get_goes_on(self, ask, place, act, revocation):
        """Reads the head of the long file, has the GET revoked, and reads the rest. Whether it was revoked."""
        scene, revoked, client = self.scene, [], NarrowClient(self.soak.server.port, name_of(ask.user))
        world, sent, begun = scene.world, time.monotonic(), []

        def amid():
            begun.append(time.monotonic())
            revoked.append(scene.change(revocation, once=True))

        answer = self.soak.ask_once(client, "GET", placed(ask.user, ask.path), amid=amid)
        if answer is not None:
            scene.tell(Told(ask, sent, begun[0], sent, begun[0], answer.status, plain(answer, ask)))
            scene.went_on += revoked[0] and answer.status == 200
            self.send(ask, client)
        client.close()
        return answer is not None and revoked[0]

    def restore(self, share, revocation):
        """Gives back what was revoked, where that can be."""
        scene = self.scene
        ask = Ask(revocation.user, "SET", share=share.number, permissions=share.permissions)
        if revocation.method == "END":
            paths = [path for path, at in scene.world.paths(share.giver) if at == share.node]
            if not paths:
                return
            ask = Ask(share.giver, "NEW", paths[0], receiver=share.receiver, permissions=share.permissions)
        if wanted_of(scene.world, ask)[1] is None:
            scene.change(ask)

    def tend(self, world):
        """Nothing is granted that can be revoked: gives a share all permissions, or begins anew."""
        shares = [share for share in world.shares.values()
                  if not share.ended and share.permissions != world.allowed(ALL, share.node, share.token)]
        asks = [Ask(share.owner, "SET", share=share.number, permissions=ALL) for share in shares]
        asks = [ask for ask in asks if wanted_of(world, ask)[1] is None]
        if asks:
            self.scene.change(self.chance.choice(asks))
        elif self.scene.can_share():
            self.scene.renew()


def members(soak):
    """The clients, with their scenes laid out."""
    clients = range(soak.options.clients)
    scenes = [Scene(soak, number, USERS[number % len(USERS)]) for number in range(scenes_for(len(clients)))]
    for scene in scenes:
        scene.renew()
    return [Member(scenes[number % len(scenes)], number, USERS[number // len(scenes) % len(USERS)]) for number in clients]


def scenes_for(clients):
    """How many scenes so many clients have."""
    return -(-clients // IN_A_SCENE)
