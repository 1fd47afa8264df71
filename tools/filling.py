"""Rows that the tools put into a store themselves, where as many requests would take too long."""
import hashlib
import sqlite3
import struct

# The user to whom the nodes belong, and the first number behind the users of the demonstration; and what its one body is.
ALICE, FIRST_USER = 1, 4
HELLO = b"hello\n"


class Rows:
    """The rows of the store, beside those of the demonstration."""

    def __init__(self):
        self.rows, self.node, self.share, self.user, self.last = [], 5, 1, FIRST_USER, 1000

    def put(self, kind, key, body):
        self.rows.append((kind, key, b"\1" + body))

    @staticmethod
    def name(name):
        return bytes([len(name)]) + name.encode()

    def folder(self, name, owner=ALICE, folder=None):
        return self.add_node(name, owner, folder, b"\0\0\0")

    def file(self, name, folder):
        return self.add_node(name, ALICE, folder, b"\1" + self.hello())

    @staticmethod
    def hello():
        return b"\0\1" + struct.pack(">QI", 1, len(HELLO)) + hashlib.sha256(HELLO).digest()

    def add_version(self, node, moment):
        self.last = max(self.last, moment)
        self.put(9, struct.pack(">QQ", node, moment), self.hello())

    def add_node(self, name, owner, folder, what):
        place = b"\0" if folder is None else struct.pack(">BQ", 1, folder)
        self.put(6, struct.pack(">Q", self.node), struct.pack(">I", owner) + place + self.name(name) + what + struct.pack(">Q", 1000))
        self.node += 1
        return self.node - 1

    def add_share(self, user, node, name, permissions):
        self.put(7, struct.pack(">Q", self.share),
                 struct.pack(">BIQIIBBBBQ", 0, user, node, ALICE, ALICE, 0, permissions, 0, 0, 1000))
        self.put(8, struct.pack(">IQ", user, node), self.name(name) + b"\0")
        self.share += 1

    def add_group(self, group, name):
        self.put(4, struct.pack(">I", group), self.name(name))

    def add_member(self, group, user):
        self.put(5, struct.pack(">II", group, user), b"")

    def share_with_group(self, group, node):
        self.put(7, struct.pack(">Q", self.share),
                 struct.pack(">BIQIIBBBBQ", 1, group, node, ALICE, ALICE, 0, 19, 0, 0, 1000))
        self.share += 1

    def add_link(self, token, node, permissions):
        self.put(7, struct.pack(">Q", self.share),
                 b"\3" + self.name(token) + struct.pack(">QIIBBBBQ", node, ALICE, ALICE, 0, permissions, 0, 0, 1000))
        self.share += 1

    def add_user(self, name):
        root = self.folder(name, self.user)
        self.put(2, struct.pack(">I", self.user), self.name(name) + struct.pack(">QQ", 1 << 30, root))
        self.user += 1
        return self.user - 1

    def store(self, store, groups):
        """Puts them into a store that has those of the demonstration, with so many numbers of groups given."""
        with sqlite3.connect(store) as connection:
            [(meta,)] = connection.execute("SELECT body FROM rows WHERE kind = 1")
            *_, next_blob, _ = struct.unpack(">IIQQQQ", meta[1:])
            meta = b"\1" + struct.pack(">IIQQQQ", self.user, groups + 1, self.node, self.share, next_blob, self.last)
            connection.execute("UPDATE rows SET body = ? WHERE kind = 1", (meta,))
            connection.executemany("INSERT INTO rows VALUES (?, ?, ?)", self.rows)
        connection.close()
