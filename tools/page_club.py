"""What tools/try-page and tools/try-web share: a filesd over a store, members who ask it, and a small club of them."""
import http.client
import json
import os
import re
import struct
import subprocess
import sys
import threading
import time
import zlib
from urllib.parse import quote, urlencode

ROOT = os.path.dirname(os.path.dirname(os.path.realpath(__file__)))
FILESD = os.path.join(ROOT, "bin/filesd")
GIGABYTE = 1_073_741_824
SHARES = "apps/files_sharing/api/v1/shares"


class Filesd:
    """Serves a store on a port of loopback that the system chose. With `ann` it makes a store whose administrator she is."""

    def __init__(self, store, ann=False, **more):
        env = {**os.environ, "FILESD_STORE": store, "FILESD_LISTEN": "127.0.0.1:0", **more}
        if ann:
            subprocess.run([FILESD, "init", "ann", "ann-1", str(1024 * GIGABYTE)], stdout=subprocess.DEVNULL, env=env, check=True)
        self.process = subprocess.Popen([FILESD, "serve", "--connections", "1000000"], stderr=subprocess.PIPE, env=env, text=True)
        for line in self.process.stderr:
            if found := re.search(r"listening on 127\.0\.0\.1:(\d+)", line):
                self.port = int(found[1])
                break
            sys.stderr.write(line)
        else:
            sys.exit(f"filesd ended with status {self.process.wait()}")
        # What it says from then on is read, so that it never waits for that.
        threading.Thread(target=lambda: [sys.stderr.write(one) for one in self.process.stderr], daemon=True).start()

    def end(self):
        self.process.terminate()
        self.process.wait()


class Member:
    """Asks filesd as one member, whose token is the name's letters and digits with `-1` behind them."""

    def __init__(self, port, name):
        self.port, self.name, self.client, self.last = port, name, None, 0
        self.token = re.sub(r"\W", "", name, flags=re.A) + "-1"

    def asked(self, method, target, body=None, **fields):
        """The status and the body, over one connection as long as that is open. filesd closes it where nothing came for 30 seconds."""
        if time.monotonic() - self.last > 20:
            self.close()
        self.last = time.monotonic()
        self.client = self.client or http.client.HTTPConnection("127.0.0.1", self.port, timeout=60)
        self.client.request(method, target, body, {"Authorization": f"Bearer {self.token}", **fields})
        answer = self.client.getresponse()
        return answer.status, answer.read()

    def close(self):
        """A connection holds a worker of filesd until it is closed."""
        if self.client:
            self.client.close()
            self.client = None

    def ask(self, method, target, body=None, **fields):
        status, content = self.asked(method, target, body, **fields)
        if status >= 300:
            sys.exit(f"{method} {target}: {status} {content!r}")
        return content

    def path(self, path):
        return f"/remote.php/dav/files/{quote(self.name, safe='')}/{quote(path)}"

    def files(self, method, path, body=None):
        return self.ask(method, self.path(path), body)

    def read(self, path):
        """The bytes of the file, or None where there is none."""
        status, content = self.asked("GET", self.path(path))
        return content if status == 200 else None

    def names(self, path=""):
        status, content = self.asked("GET", self.path(path))
        return [one["name"] for one in json.loads(content)["entries"]] if status == 200 else None

    def ocs(self, method, route, **parameters):
        fields = {"OCS-APIRequest": "true", "Content-Type": "application/x-www-form-urlencoded"}
        return json.loads(self.ask(method, "/ocs/v2.php/" + route, urlencode(parameters), **fields))["ocs"]["data"]

    def share(self, **parameters):
        return self.ocs("POST", SHARES, **parameters)


def picture(width=480, height=300):
    """A PNG: a sky that is dark above and light below."""
    def chunk(kind, content):
        return struct.pack(">I", len(content)) + kind + content + struct.pack(">I", zlib.crc32(kind + content))

    rows = b"".join(b"\0" + bytes((40 + 180 * row // height, 60 + 110 * row // height, 120 + 20 * row // height)) * width for row in range(height))
    return (b"\x89PNG\r\n\x1a\n" + chunk(b"IHDR", struct.pack(">IIBBBBB", width, height, 8, 2, 0, 0, 0)) + chunk(b"IDAT", zlib.compress(rows, 9))
            + chunk(b"IEND", b""))


def fill(port):
    """Under the administrator ann three members, a group, some files and shares. Returns the token of a link."""
    ann, alice, bob = (Member(port, name) for name in ("ann", "alice", "bob"))
    for name in ("alice", "bob", "carol"):
        ann.ocs("POST", "cloud/users", userid=name, token=f"{name}-1", quota=GIGABYTE)
    ann.ocs("POST", "cloud/groups", groupid="players")
    for name in ("alice", "bob"):
        ann.ocs("POST", f"cloud/users/{name}/groups", groupid="players")
    for folder in ("notes", "notes/plans", "pictures"):
        alice.files("MKCOL", folder)
    alice.files("PUT", "welcome.txt", b"Welcome to your files.\n")
    alice.files("PUT", "notes/to do.txt", b"Read the guide.\nShare a folder.\n")
    alice.files("PUT", "notes/plans/season.txt", b"We begin in spring.\n")
    alice.files("PUT", "pictures/evening.png", picture())
    bob.files("PUT", "from bob.txt", b"For all players.\n")
    bob.share(path="/from bob.txt", shareType=1, shareWith="players", permissions=17)
    alice.share(path="/notes", shareType=0, shareWith="bob")
    link = alice.share(path="/pictures", shareType=3, permissions=1)["token"]
    for one in (ann, alice, bob):
        one.close()
    return link
