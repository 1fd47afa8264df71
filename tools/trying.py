"""What tools/try-clients and tools/try-hostile share: a server over a store in a temporary folder, and the lines that they print."""
import http.client
import os
import re
import subprocess
import sys
import threading

ROOT = os.path.dirname(os.path.dirname(os.path.realpath(__file__)))
PROGRAM = sys.argv[1] if len(sys.argv) > 1 else os.path.join(ROOT, "release/filesd")
FILES = "/remote.php/dav/files/alice/"
TOKEN = "Authorization: Bearer alice-1"
# What a client may meet instead of an answer.
FAULTS = (OSError, http.client.HTTPException)
counts = {}


class Server:
    """A server over the demonstration rows, on a port of loopback that the system chose."""

    def __init__(self, folder, workers=4, timeout=5, words=("--connections", "1000000"), **more):
        self.store = os.path.join(folder, "club.db")
        env = {**os.environ, "FILESD_STORE": self.store, "FILESD_LISTEN": "127.0.0.1:0", "FILESD_WORKERS": str(workers),
               "FILESD_TIMEOUT": str(timeout), "FILESD_MESSAGE_TIME": str(2 * timeout), **more}
        subprocess.run([PROGRAM, "batch"], stdin=subprocess.DEVNULL, env=env, check=True)
        self.process = subprocess.Popen([PROGRAM, "serve", *words], stderr=subprocess.PIPE, env=env, text=True)
        line = self.process.stderr.readline()
        found = re.search(r"listening on 127\.0\.0\.1:(\d+)", line)
        if not found:
            sys.exit(f"the server said: {line}{self.process.stderr.read()}")
        self.port = int(found[1])
        # What it says from then on.
        self.said = []
        threading.Thread(target=lambda: self.said.extend(self.process.stderr), daemon=True).start()

    def ask(self, method, name, body=None, timeout=20):
        client = http.client.HTTPConnection("127.0.0.1", self.port, timeout=timeout)
        client.request(method, FILES + name, body, dict([TOKEN.split(": ")]))
        answer = client.getresponse()
        content = answer.read()
        client.close()
        return answer.status, content

    def lives(self):
        return self.process.poll() is None

    def kill(self):
        self.process.kill()
        self.process.wait()


def say(word, what):
    counts[word] = counts.get(word, 0) + 1
    print(f"{word:10} {what}", flush=True)


def check(what, is_so, seen="", word="ok"):
    """A line that begins with the word where it is so, and else with FAILED and what was seen instead."""
    say(word if is_so else "FAILED", what if is_so or seen == "" else f"{what}; seen: {seen}")


def known(what, right, seen, wrong):
    """A line that begins with `known` where what is seen begins the wrong answer that is known, and with `ok` once it is right."""
    if seen and wrong.startswith(seen):
        say("known", f"{what}: {wrong}; {right} would be right")
    else:
        check(f"{what}: {right}", seen == right, seen)


def finish():
    print(", ".join(f"{count} {word}" for word, count in counts.items()))
    sys.exit(1 if "FAILED" in counts else 0)
