"""A model of files, shares and mounts, for `tools/soak --shares`: by docs/HTTP.md it says what each member is answered, and whoever comes
by a link.

A world is what is there between two changes, and is never changed itself. It has the folders and files that stay until a change
moves or removes them. Files that come and go beside them have no place in it: who asks says whether one is there.
"""
from collections import namedtuple

READ, UPDATE, CREATE, DELETE, SHARE = ACTS = [1, 2, 4, 8, 16]
ALL, OF_A_FILE = sum(ACTS), READ | UPDATE | SHARE
OF_A_LINK = ALL & ~SHARE
LONGEST_CHAIN, LONGEST_EXTENSION = 16, 10

# `folder` is the number of the folder that it is in, or the name of the user in whose root it is. A folder has no body.
Node = namedtuple("Node", "folder name body")
# A link has a token, and no receiver.
Share = namedtuple("Share", "number parent giver receiver owner node permissions ended token", defaults=(None,))
# Who asks, where it isn't a user: whoever knows the link of a share. What the share is of is where its paths begin.
Link = namedtuple("Link", "number token")
Mount = namedtuple("Mount", "name left")
# A request. That of a share is NEW, SET, END, SHOW or LIST, and any other is called by its method.
Ask = namedtuple("Ask", "user method path target overwrite body share receiver permissions", defaults=(None, None, True) + 4 * (None,))
# Where a path leads: the mount on its way or None, the last node or the user's name, and the names that lead on from there.
Place = namedtuple("Place", "mount at rest")


class Refused(Exception):
    """A refusal: its status, and its object."""

    def __init__(self, status, reason, **more):
        self.status, self.told = status, {"reason": reason, **more}


class NotModelled(Exception):
    """What this model doesn't say."""


class World:
    """Nodes and shares by their numbers, and mounts by users and nodes."""

    def __init__(self, nodes, shares, mounts):
        self.nodes, self.shares, self.mounts = nodes, shares, mounts
        self.named = {(node.folder, node.name): number for number, node in nodes.items()}
        self.called = {(user, mount.name): node for (user, node), mount in mounts.items() if not mount.left}
        self.received = {}
        for share in shares.values():
            who = Link(share.number, share.token) if share.token else share.receiver
            self.received.setdefault((who, share.node), []).append(share.number)

    def is_folder(self, at):
        return isinstance(at, str) or self.nodes[at].body is None

    def is_under(self, at, top):
        while at != top:
            if at not in self.nodes:
                return False
            at = self.nodes[at].folder
        return True

    def path(self, at):
        """Its owner, and the path in the owner's files."""
        names = []
        while not isinstance(at, str):
            names.insert(0, self.nodes[at].name)
            at = self.nodes[at].folder
        return at, tuple(names)

    def owner(self, at):
        return self.path(at)[0]

    def inside(self, at):
        return [number for number, node in self.nodes.items() if node.folder == at]

    def paths(self, user):
        """The paths by which names lead the user to what is there, and to mounts, with the nodes: whether or not the user is let in. By a
        link the path without names leads there, too."""
        found = [((self.nodes[number].name,), number) for number in self.inside(user)]
        if isinstance(user, Link) and self.shares[user.number].node in self.nodes:
            found = [((), self.shares[user.number].node)]
        found += [((mount.name,), node) for (of, node), mount in self.mounts.items() if of == user and not mount.left]
        for path, at in found:
            found += [(path + (self.nodes[number].name,), number) for number in self.inside(at)]
        return found

    # Chains

    def chain(self, number):
        links = []
        while number is not None:
            links.insert(0, self.shares[number])
            number = links[0].parent
        return links

    def broken(self, number, acts=0):
        """Of the chain of a share the first link that doesn't hold, or doesn't allow the acts, as a refusal tells it; or None."""
        links = self.chain(number)
        for link, following in zip(links, links[1:] + [None]):
            if link.ended:
                cause = "ended"
            elif following and not link.permissions & SHARE:
                cause = "no-reshare"
            elif following and not self.is_under(following.node, link.node):
                cause = "moved-out"
            elif acts & ~link.permissions:
                cause = "narrowed"
            else:
                continue
            return {"cause": cause, "share": link.number}
        return None

    def may(self, user, mount, acts=0):
        """Whether a chain allows the acts by a mount, or, with none, lets in. What has no mount on the way is the user's own."""
        return mount is None or any(not self.broken(number, acts) for number in self.received.get((user, mount), []))

    def need(self, user, mount, act=0):
        if not self.may(user, mount, act):
            numbers = self.received.get((user, mount))
            raise Refused(403, "broken-link", **self.broken(numbers[0], act)) if numbers else Refused(403, "no-share")

    def permissions(self, user, mount):
        return sum(act for act in ACTS if self.may(user, mount, act))

    # Places

    def go(self, at, rest):
        while rest and (at, rest[0]) in self.named:
            at, rest = self.named[at, rest[0]], rest[1:]
        return at, rest

    def links(self):
        return [Link(share.number, share.token) for share in self.shares.values() if share.token]

    def find(self, user, path):
        if isinstance(user, Link):
            mount = self.shares[user.number].node
            self.need(user, mount)
            return Place(mount, *self.go(mount, path))
        at, rest = self.go(user, path)
        if at != user or not rest or (user, rest[0]) not in self.called:
            return Place(None, at, rest)
        mount = self.called[user, rest[0]]
        self.need(user, mount)
        return Place(mount, *self.go(mount, rest[1:]))

    def find_target(self, user, path):
        place = self.find(user, path)
        if len(place.rest) > 1 or place.rest and not self.is_folder(place.at):
            raise Refused(409, "no-parent")
        return place

    def is_there(self, place, has):
        return not place.rest or has and len(place.rest) == 1 and self.is_folder(place.at)

    def is_start(self, user, place):
        """Whether it is what the link is of that somebody comes by."""
        return isinstance(user, Link) and not place.rest and place.at == place.mount

    def folder(self, user, place):
        """What a link is of stands for its own folder."""
        return place.at if place.rest or self.is_start(user, place) else self.nodes[place.at].folder

    # Files

    def decide(self, ask, has=(False, False)):
        """The status of a request in a user's files, its source and its target; or it is refused. `has` says whether a file that comes
        and goes is at the source, and whether one is at the target, where no other node is."""
        user, path = ask.user, ask.path
        if ask.method in ("PUT", "MKCOL"):
            return self.decide_new(ask, has[1])
        if len(path) == 1 and (user, path[0]) in self.called and ask.method in ("DELETE", "MOVE"):
            mount = self.called[user, path[0]]
            if ask.method == "MOVE":
                self.decide_rename(ask)
            return 204 if ask.method == "DELETE" else 201, Place(mount, mount, ()), None
        source = self.find(user, path)
        if not self.is_there(source, has[0]):
            raise Refused(404, "not-found")
        if ask.method in ("MOVE", "COPY"):
            return self.decide_carried(ask, source, has[1])
        self.need(user, source.mount, READ if ask.method == "GET" else DELETE)
        if ask.method == "DELETE" and self.is_start(user, source):
            raise Refused(403, "bad-target", cause="root")
        return 200 if ask.method == "GET" else 204, source, None

    def decide_new(self, ask, has):
        target = self.find_target(ask.user, ask.path)
        is_there = self.is_there(target, has)
        self.need(ask.user, target.mount, UPDATE if is_there and ask.method == "PUT" else CREATE)
        if is_there and (ask.method == "MKCOL" or not target.rest and self.is_folder(target.at)):
            raise Refused(405, "exists")
        return 204 if is_there else 201, None, target

    def decide_rename(self, ask):
        user, target = ask.user, ask.target
        self.find_target(user, target)
        if target == ask.path:
            raise Refused(403, "bad-target", cause="same")
        over = self.called.get((user, target[0]))
        if over and self.is_under(self.called[user, ask.path[0]], over):
            raise Refused(403, "bad-target", cause="inside")
        if len(target) > 1 or (user, target[0]) in self.named or (user, target[0]) in self.called:
            raise Refused(403, "bad-target", cause="mount")

    def decide_carried(self, ask, source, has):
        """A MOVE or COPY of what is there."""
        user, target = ask.user, self.find_target(ask.user, ask.target)
        replaces, folder = self.is_there(target, has), self.folder(user, target)
        if not isinstance(user, Link) and not target.rest and target.at == target.mount:
            raise NotModelled
        if ask.method == "MOVE" and folder == self.folder(user, source):
            self.need(user, source.mount, UPDATE)
        else:
            self.need(user, source.mount, DELETE if ask.method == "MOVE" else READ)
            self.need(user, target.mount, CREATE)
        if replaces:
            self.need(user, target.mount, DELETE)
        if self.is_start(user, source) or self.is_start(user, target):
            raise Refused(403, "bad-target", cause="root")
        if source[1:] == target[1:]:
            raise Refused(403, "bad-target", cause="same")
        if not source.rest and self.is_under(folder, source.at) or not target.rest and self.is_under(source.at, target.at):
            raise Refused(403, "bad-target", cause="inside")
        if replaces and not ask.overwrite:
            raise Refused(412, "overwrite")
        return 204 if replaces else 201, source, target

    def lines(self, user, place):
        """What a listing says of these nodes: name, kind, owner and permissions, and the node."""
        found = [(self.nodes[number].name, number, place.mount) for number in self.inside(place.at)]
        if place.at == user:
            found += [(mount.name, node, node) for (of, node), mount in self.mounts.items()
                      if of == user and not mount.left and self.may(user, node)]
        return sorted((name, "folder" if self.is_folder(number) else "file", self.owner(number), self.permissions(user, mount), number)
                      for name, number, mount in found)

    # Shares

    def is_of(self, share, user):
        return user in (share.giver, share.owner)

    def decide_share(self, ask):
        """The parent and the permissions of what a NEW, SET or END makes; or it is refused."""
        if ask.method == "NEW":
            return self.decide_new_share(ask)
        share = self.shares.get(ask.share)
        if not share or share.ended or not self.is_of(share, ask.user):
            raise Refused(404, "not-found")
        permissions = share.permissions if ask.method == "END" else self.allowed(ask.permissions, share.node, share.token)
        if ask.method == "SET" and any(permissions & ~link.permissions for link in self.chain(ask.share)[:-1]):
            raise Refused(403, "rule", rule="widened")
        return share.parent, permissions

    def allowed(self, permissions, at, is_link):
        return READ | permissions & (ALL if self.is_folder(at) else OF_A_FILE) & (OF_A_LINK if is_link else ALL)

    def decide_new_share(self, ask):
        place = self.find(ask.user, ask.path)
        if place.rest:
            raise Refused(404, "not-found")
        self.need(ask.user, place.mount, SHARE)
        if ask.receiver in (ask.user, self.owner(place.at)):
            raise Refused(403, "rule", rule="self")
        if ask.receiver and any(not share.ended and (share.giver, share.receiver, share.node) == (ask.user, ask.receiver, place.at)
               for share in self.shares.values()):
            raise Refused(403, "rule", rule="already")
        permissions, parent = self.allowed(ask.permissions, place.at, not ask.receiver), None
        if place.mount is not None:
            parents = [number for number in self.received[ask.user, place.mount] if not self.broken(number, SHARE | permissions)]
            if not parents:
                raise Refused(403, "rule", rule="widened")
            parent = parents[0]
            if len(self.chain(parent)) == LONGEST_CHAIN:
                raise Refused(403, "rule", rule="chain")
        return parent, permissions

    def shown(self, ask):
        """The shares that a SHOW or LIST tells; or it is refused."""
        user, shares = ask.user, [share for share in self.shares.values() if not share.ended]
        if ask.method == "SHOW":
            shares = [share for share in shares if share.number == ask.share and (self.is_of(share, user) or share.receiver == user)]
            if not shares:
                raise Refused(404, "not-found")
            return shares
        place = self.find(user, ask.path)
        if place.rest:
            raise Refused(404, "not-found")
        return [share for share in shares if share.node == place.at
                and (share.receiver == user if ask.receiver else self.is_of(share, user))]

    # Changes

    def after(self, ask, numbers, number=None, token=None):
        """The world after a request that isn't refused, and pairs of what was copied and its copy. `numbers` gives new nodes theirs, and
        `number` is that of a new share; it is a link where it has a token."""
        if ask.method in ("NEW", "SET", "END"):
            return self.after_share(ask, number, token), []
        nodes, shares, mounts = dict(self.nodes), dict(self.shares), dict(self.mounts)
        _, source, target = self.decide(ask)
        if not isinstance(ask.user, Link) and source and source.at == source.mount and len(ask.path) == 1 and ask.method != "COPY":
            key = ask.user, source.mount
            mounts[key] = mounts[key]._replace(left=True) if ask.method == "DELETE" else mounts[key]._replace(name=ask.target[0])
            return World(nodes, shares, mounts), []
        if ask.method == "PUT" and not target.rest:
            nodes[target.at] = nodes[target.at]._replace(body=ask.body)
            return World(nodes, shares, mounts), []
        if target and not target.rest:
            self.remove(target.at, nodes, shares)
        pairs = []
        if ask.method in ("PUT", "MKCOL"):
            nodes[next(numbers)] = Node(target.at, target.rest[0], ask.body)
        elif ask.method != "DELETE":
            folder, name = self.folder(ask.user, target), ask.target[-1]
            if ask.method == "MOVE" and self.owner(folder) == self.owner(source.at):
                nodes[source.at] = nodes[source.at]._replace(folder=folder, name=name)
                return World(nodes, shares, mounts), []
            self.copy(source.at, folder, name, nodes, numbers, pairs)
        if ask.method in ("DELETE", "MOVE"):
            self.remove(source.at, nodes, shares)
        return World(nodes, shares, mounts), pairs

    def remove(self, top, nodes, shares):
        for number in [number for number in self.nodes if self.is_under(number, top)]:
            del nodes[number]
        for share in self.shares.values():
            if not share.ended and self.is_under(share.node, top):
                shares[share.number] = share._replace(ended=True)

    def copy(self, at, folder, name, nodes, numbers, pairs):
        number = next(numbers)
        nodes[number] = Node(folder, name, self.nodes[at].body)
        pairs.append((at, number))
        for child in self.inside(at):
            self.copy(child, number, self.nodes[child].name, nodes, numbers, pairs)

    def after_share(self, ask, number, token):
        parent, permissions = self.decide_share(ask)
        shares, mounts = dict(self.shares), dict(self.mounts)
        if ask.method != "NEW":
            shares[ask.share] = shares[ask.share]._replace(permissions=permissions, ended=ask.method == "END")
            return World(self.nodes, shares, mounts)
        at = self.find(ask.user, ask.path).at
        shares[number] = Share(number, parent, ask.user, ask.receiver, self.owner(at), at, permissions, False, token)
        if ask.receiver and mounts.get((ask.receiver, at), Mount(None, True)).left:
            mounts[ask.receiver, at] = Mount(self.free_name(ask.receiver, self.nodes[at].name), False)
        return World(self.nodes, shares, mounts)

    def free_name(self, user, name):
        """The name, or where the user's root has it already one with a number before its ending."""
        stem, dot, ending = name.rpartition(".")
        if not stem or len(ending) >= LONGEST_EXTENSION:
            stem, dot, ending = name, "", ""
        number, free = 1, name
        while (user, free) in self.named or (user, free) in self.called:
            number += 1
            free = f"{stem} ({number}){dot}{ending}"
        return free
