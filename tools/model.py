"""A model of what a client has stored, for the tools that try `filesd serve`: by docs/HTTP.md it says what each step is answered."""
import json
from collections import namedtuple

NAMES = ["a", "b", "c d", "ü", "e%41+f", "0", "long" * 60, "g?h"]
# How large a client's folder may get.
MOST_NODES, MOST_BYTES, MOST_HEIGHT = 150, 60_000_000, 40

Step = namedtuple("Step", "method path body target overwrite", defaults=(None, None, True))


class File:
    def __init__(self, body):
        self.body = body


class Folder(dict):
    """What is in it, by name."""


def copied(node):
    """A node like it, and so for all under it. Bodies are shared."""
    return File(node.body) if isinstance(node, File) else Folder((name, copied(child)) for name, child in node.items())


def is_like(node, other):
    if isinstance(node, File) or isinstance(other, File):
        return isinstance(node, File) and isinstance(other, File) and node.body == other.body
    return list(sorted(node)) == list(sorted(other)) and all(is_like(child, other[name]) for name, child in node.items())


def size(node):
    return len(node.body) if isinstance(node, File) else sum(map(size, node.values()))


def count(node):
    return 1 if isinstance(node, File) else 1 + sum(map(count, node.values()))


def height(node):
    return 1 if isinstance(node, File) else 1 + max(map(height, node.values()), default=0)


def refusal(status, reason, **more):
    return status, {"reason": reason, **more}


def lines_of(folder):
    """What a listing of it says: name, kind and size, by the bytes of the names."""
    return [(name, "file" if isinstance(child, File) else "folder", size(child)) for name, child in sorted(folder.items())]


def listed(body):
    """What a listing says: its lines, and the numbers."""
    entries = json.loads(body)["entries"]
    return [(entry["name"], entry["kind"], entry["size"]) for entry in entries], [entry["id"] for entry in entries]


def is_answer(answer, wanted):
    """Whether an answer is what the model said: a status, and the body, the object of a refusal or the lines of a listing."""
    status, what = wanted
    if answer.status != status:
        return False
    if isinstance(what, dict):
        return json.loads(answer.body) == what
    return answer.body == what if isinstance(what, bytes) else listed(answer.body)[0] == what


class Tree:
    """What a client has under a folder of its own, `top`, which is in the user's root. Paths begin below it."""

    def __init__(self, top, root=None):
        self.top, self.root = top, root or Folder()

    def find(self, path):
        """The node that a path leads to, or None."""
        node = self.root
        for name in path:
            node = node.get(name) if isinstance(node, Folder) else None
        return node

    def path_of(self, folder):
        """The path of a folder that is under the top, or None where it isn't any more."""
        paths = [((), self.root)]
        for path, node in paths:
            if node is folder:
                return list(path)
            paths += [((*path, name), child) for name, child in node.items() if isinstance(child, Folder)]
        return None

    def folder(self, path):
        """The folder in which the last name of a path is or may be, or None."""
        node = self.find(path[:-1])
        return node if isinstance(node, Folder) else None

    def make(self, step):
        """Makes a step in the model, and gives what it has to be answered."""
        method, path, body, target, overwrite = step
        node, folder = self.find(path), self.folder(target or path)
        if method in ("GET", "DELETE", "MOVE", "COPY") and node is None:
            return refusal(404, "not-found")
        if method == "GET":
            return 200, node.body if isinstance(node, File) else lines_of(node)
        if folder is None:
            return refusal(409, "no-parent")
        if method == "MKCOL" and node is not None or method == "PUT" and isinstance(node, Folder):
            return refusal(405, "exists")
        name = (target or path)[-1]
        status = 204 if name in folder else 201
        if method == "DELETE":
            del folder[name]
        elif method == "MKCOL":
            folder[name] = Folder()
        elif method == "PUT" and node:
            node.body = body
        elif method == "PUT":
            folder[name] = File(body)
        elif path == target:
            return refusal(403, "bad-target", cause="same")
        elif path == target[:len(path)] or target == path[:len(target)]:
            return refusal(403, "bad-target", cause="inside")
        elif status == 204 and not overwrite:
            return refusal(412, "overwrite")
        elif method == "COPY":
            folder[name] = copied(node)
        else:
            del self.folder(path)[path[-1]]
            folder[name] = node
        return status, b""

    def send(self, ask, step, **more):
        """Sends a step, by a function that takes a method, a path, a body and fields; its answer."""
        if step.target is not None:
            more["Destination"], more["Overwrite"] = [self.top, *step.target], "T" if step.overwrite else "F"
        return ask(step.method, [self.top, *step.path], step.body, **more)

    def path(self, chance):
        """A path that mostly leads to something, or to a free name in a folder."""
        node, path = self.root, []
        while True:
            known = isinstance(node, Folder) and node and chance.random() < 0.85
            path.append(chance.choice(list(node) if known else NAMES))
            node = node.get(path[-1]) if isinstance(node, Folder) else None
            if len(path) == 5 or chance.random() < (0.4 if isinstance(node, Folder) else 0.95):
                return path

    def step(self, chance, weights, body):
        """A step by chance, of a method with such weights. `body` gives the one of a PUT. Instead of what would make the folder too
        large it is a DELETE."""
        [method], path = chance.choices(list(weights), weights.values()), self.path(chance)
        step = Step(method, path)
        if method == "GET" and chance.random() < 0.3:
            step = Step("GET", path[:-1])
        if method in ("MOVE", "COPY"):
            step = Step(method, path, None, self.path(chance), chance.random() < 0.6)
        node = self.find(path) if method == "COPY" else None
        more, longer = (count(node), size(node)) if node is not None else (1, 0)
        is_large = count(self.root) + more > MOST_NODES or size(self.root) + longer > MOST_BYTES
        if method in ("PUT", "MKCOL", "COPY") and is_large or step.target and height(self.root) + len(step.target) > MOST_HEIGHT:
            return Step("DELETE", path)
        return step._replace(body=body()) if method == "PUT" else step


def read(ask, path):
    """What a folder has by its listings and the bytes of its files, which have to agree."""
    answer = ask("GET", path)
    assert answer.status == 200, f"GET of the folder {path}: {answer}"
    folder, (lines, _) = Folder(), listed(answer.body)
    for name, kind, _ in lines:
        if kind == "folder":
            folder[name] = read(ask, [*path, name])
            continue
        answer = ask("GET", [*path, name])
        assert answer.status == 200, f"GET of {[*path, name]}: {answer}"
        folder[name] = File(answer.body)
    assert lines_of(folder) == lines, f"the listing of {path} doesn't agree with what is there: {lines}, but {lines_of(folder)}"
    return folder
