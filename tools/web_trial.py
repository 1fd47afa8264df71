"""The page before a club: what the parts of tools/try-web share."""
import os
import re
import socket
import subprocess
import sys
import time

import page_club
import page_proxy
from web_browser import Missing

ROOT = page_club.ROOT
LARGEST = page_proxy.LARGEST
MEGABYTE = 1_048_576
counts = {}
HOSTILE = [
    "<img src=x onerror=alert(1)>", '"><svg onload=alert(1)>.txt', "javascript:alert(1)", "\u202etxt.exe", "ملف سري ٣.txt", "a\nb.txt", "x" * 240,
    "ä" * 118 + ".txt", "100% sure?#&+;=.txt", "%2e%2e", "..secret", "constructor", "__proto__", " blanks before and behind ", "\U0001f9d7\u200d\u2640\ufe0f.txt",
    "{{7*7}}${7*7}", "a'b\"c`d"]


def say(word, what):
    counts[word] = counts.get(word, 0) + 1
    print(f"{word:8}{what}", flush=True)


def check(what, is_so, seen=""):
    say("ok" if is_so else "FAILED", what if is_so or seen in ("", None) else f"{what}; seen: {str(seen)[:400]}")


def skip(why):
    print(f"skipped: {why}")
    sys.exit(0)


def replaced(text, pairs):
    for old, new in pairs:
        if old not in text:
            sys.exit(f"deploy/nginx.conf has no {old!r}")
        text = text.replace(old, new)
    return text


def free_port():
    with socket.socket() as one:
        one.bind(("127.0.0.1", 0))
        return one.getsockname()[1]


class Nginx:
    """nginx by its example, with TLS, of which names, ports and places are replaced alone."""

    def __init__(self, folder, filesd):
        self.port, plain = free_port(), free_port()
        subprocess.run(["openssl", "req", "-x509", "-newkey", "ec", "-pkeyopt", "ec_paramgen_curve:prime256v1", "-nodes", "-days", "2", "-subj", "/CN=localhost",
                        "-addext", "subjectAltName=DNS:localhost", "-keyout", f"{folder}/key.pem", "-out", f"{folder}/fullchain.pem"], check=True, capture_output=True)
        with open(os.path.join(ROOT, "deploy/nginx.conf"), encoding="utf-8") as file:
            site = replaced(file.read(), [
                ("server 127.0.0.1:8080;", f"server 127.0.0.1:{filesd};"), ("listen 443 ssl", f"listen 127.0.0.1:{self.port} ssl"), ("    listen [::]:443 ssl http2;\n", ""),
                ("    listen 80;", f"    listen 127.0.0.1:{plain};"), ("    listen [::]:80;\n", ""), ("files.example.org", "localhost"),
                ("/etc/ssl/filesd/", folder + "/"), ("/var/log/nginx/", folder + "/"), ("/usr/local/share/filesd/web", os.path.join(ROOT, "web"))])
        temporary = "".join(f"{one}_temp_path {folder}/{one};\n" for one in ("client_body", "proxy", "fastcgi", "uwsgi", "scgi"))
        user = "user root;" if os.geteuid() == 0 else ""
        with open(os.path.join(folder, "nginx.conf"), "w", encoding="utf-8") as file:
            file.write(f"daemon off;\n{user}\nworker_processes 1;\npid {folder}/pid;\nerror_log {folder}/error.log;\nevents {{}}\nhttp {{\naccess_log off;\n{temporary}{site}}}\n")
        self.process = subprocess.Popen(["nginx", "-e", "stderr", "-c", os.path.join(folder, "nginx.conf")], stderr=subprocess.PIPE, text=True)
        for _ in range(200):
            try:
                socket.create_connection(("127.0.0.1", self.port)).close()
                break
            except OSError:
                time.sleep(0.05)
        else:
            sys.exit("nginx doesn't listen: " + self.process.stderr.read())
        self.address = f"https://localhost:{self.port}"

    def end(self):
        self.process.terminate()
        self.process.wait()


class Small:
    """The proxy of tools/try-page."""

    def __init__(self, filesd):
        self.proxy = page_proxy.Proxy(("127.0.0.1", filesd)).begin()
        self.port = self.proxy.port
        self.address = f"http://localhost:{self.port}"

    def end(self):
        self.proxy.shutdown()


class Trial:
    """The page before a club, and steps that several parts of the trial take."""

    def __init__(self, folder, browser, address, port):
        self.folder, self.browser, self.address, self.port = folder, browser, address, port
        self.ann = page_club.Member(port, "ann")

    def member(self, name, quota=page_club.GIGABYTE):
        one = page_club.Member(self.port, name)
        self.ann.ocs("POST", "cloud/users", userid=name, token=one.token, quota=quota)
        return one

    def local(self, name, content):
        """A file on this machine, to be uploaded."""
        path = os.path.join(self.folder, "local", name)
        os.makedirs(os.path.dirname(path), exist_ok=True)
        with open(path, "wb") as file:
            file.write(content)
        return path

    def open(self, view="#/files/"):
        """The page from its beginning, at that view, with whatever is remembered."""
        self.browser.driver.get("about:blank")
        self.browser.driver.get(f"{self.address}/{view}")

    def forget(self):
        self.open("")
        self.browser.js("sessionStorage.clear(); localStorage.clear()")
        self.open("#/files/")

    def shown(self, view, seconds=12):
        is_so = self.browser.until(lambda: self.browser.js(
            "return document.body.dataset.view === arguments[0] && document.querySelector('main').getAttribute('aria-busy') !== 'true'", view), seconds)
        if not is_so:
            raise Missing(f"the view {view} isn't shown, but {self.browser.js('return document.body.dataset.view')}: {self.said()}")

    def sign_in(self, name, token=None, view="#/files/"):
        self.forget()
        self.shown("sign-in")
        self.browser.fill("Name", name)
        self.browser.fill("Token", token or re.sub(r"\W", "", name, flags=re.A) + "-1")
        self.browser.click("button", "Sign in")
        self.shown("files")
        if view != "#/files/":
            self.go(view)

    def go(self, view):
        self.browser.js("location.hash = arguments[0]", view)
        self.shown(re.match(r"#/(\w+)", view)[1])

    def said(self):
        return self.browser.text("#said, [role=alert]")

    def says(self, *words):
        """What is said once it has all these words, or what is said at last."""
        self.browser.until(lambda: all(one in self.said() for one in words))
        return all(one in self.said() for one in words)

    def rows(self):
        return self.browser.js("return [...document.querySelectorAll('#files tr[data-name]')].map(row => row.dataset.name)")

    def rows_are(self, names):
        self.browser.until(lambda: sorted(self.rows()) == sorted(names))
        return sorted(self.rows()) == sorted(names)

    def has_row(self, name):
        return bool(self.browser.until(lambda: name in self.rows()))

    @staticmethod
    def row(name):
        """The row's selector. What is shown of a name isn't the name where that has a line end or signs that turn the text."""
        return '#files tr[data-name="%s"]' % "".join(f"\\{ord(one):x} " if ord(one) < 128 and not one.isalnum() else one for one in name)

    def open_row(self, name):
        self.browser.click("link", "", self.row(name))

    def act(self, name, what):
        self.browser.click("button", "Actions for", self.row(name))
        self.browser.click("menuitem", what)

    def select(self, *names):
        for name in names:
            self.browser.click("checkbox", "Select", self.row(name))

    def gone(self, selector="dialog[open]"):
        return not self.browser.until(lambda: not self.browser.js("return document.querySelector(arguments[0])", selector)) is True

    def closed(self):
        """Whether no dialog is open any more."""
        return bool(self.browser.until(lambda: self.browser.js("return !document.querySelector('dialog[open]')")))

    def pick(self, field, *paths):
        self.browser.driver.find_element("css selector", field).send_keys("\n".join(paths))

    def drop(self, *paths):
        """Files and folders of this machine, dragged into the page by a mouse."""
        box = self.browser.js("const b = document.querySelector('main').getBoundingClientRect(); return [b.left + b.width / 2, b.top + 200]")
        data = {"items": [], "files": list(paths), "dragOperationsMask": 1}
        for kind in ("dragEnter", "dragOver", "drop"):
            self.browser.cdp("Input.dispatchDragEvent", type=kind, x=box[0], y=box[1], data=data)

    def looks(self, what, picture=None):
        """That the view that is there has a name for each control, can be read, in light and dark, and fits a narrow screen; and pictures of it."""
        unnamed = self.browser.unnamed()
        check(f"{what}: every control has a name", not unnamed, unnamed[:4])
        for scheme in ("light", "dark"):
            self.browser.scheme(scheme)
            faint = self.browser.until(lambda: not self.browser.faint(), 1) or self.browser.faint()
            check(f"{what}: each text stands out from what is behind it, {scheme}", faint is True or faint == [], faint)
            if picture:
                self.browser.picture(f"{picture}-{scheme}")
        self.browser.scheme("light")
        self.browser.size(360, 740, phone=True)
        time.sleep(0.2)
        wide = self.browser.js("""
            const w = innerWidth, top = document.querySelector('dialog[open]') ?? document.body;
            const out = [...top.querySelectorAll('button, a, input, h1, h2, label, p, select')].filter(e => e.checkVisibility() && !e.matches('.visually-hidden, .visually-hidden *'))
                .filter(e => { const b = e.getBoundingClientRect(); return b.width > 1 && (b.right > w + 1 || b.left < -1); });
            return document.documentElement.scrollWidth > w ? ['the page: ' + document.documentElement.scrollWidth].concat(out.map(e => e.outerHTML.slice(0, 120))) : out.map(e => e.outerHTML.slice(0, 120));""")
        check(f"{what}: it fits 360 pixels", not wide, wide[:4])
        if picture:
            self.browser.picture(f"{picture}-narrow")
        self.browser.size(1200)


class held:
    """A file that another connection stores all the while."""

    def __init__(self, member, port, name):
        self.member, self.port, self.name = member, port, name

    def __enter__(self):
        self.one = socket.create_connection(("127.0.0.1", self.port))
        self.one.sendall(f"PUT {self.member.path(self.name)} HTTP/1.1\r\nHost: x\r\nAuthorization: Bearer {self.member.token}\r\nContent-Length: 9\r\n\r\nx".encode())
        time.sleep(0.3)

    def __exit__(self, *_):
        self.one.close()


def is_alert(b):
    try:
        b.driver.switch_to.alert.dismiss()
        return True
    except Exception:
        return False


def shares_of(member):
    return member.ocs_get(page_club.SHARES)
