"""What tools/try-page and tools/try-web share: a small proxy that serves the page of `web/` and hands on to filesd what is filesd's, with
the headers that the proxies of deploy/ set. It is for trying out on one's own machine: it speaks no TLS, and bounds nothing."""
import hashlib
import http.client
import http.server
import os
import re
import threading
from urllib.parse import unquote

ROOT = os.path.dirname(os.path.dirname(os.path.realpath(__file__)))
LARGEST = 16_777_216
# The same text stands in deploy/nginx.conf and deploy/Caddyfile, and tools/try-web compares the three.
PAGE_POLICY = ("default-src 'none'; script-src 'self'; style-src 'self'; connect-src 'self'; img-src 'self' blob:; frame-src blob:; "
               "base-uri 'none'; form-action 'none'; frame-ancestors 'none'")
# What filesd answers may be anybody's file, under the page's own origin: opened by its address, as a link is, it may run nothing there.
FILES_POLICY = "default-src 'none'; sandbox"
OF_BOTH = {"X-Content-Type-Options": "nosniff", "Referrer-Policy": "no-referrer"}
# `no-cache` has the browser ask each time whether what it has is still the one (ETag), so a page never mixes modules of two releases.
OF_PAGE = {**OF_BOTH, "Content-Security-Policy": PAGE_POLICY, "Cache-Control": "no-cache"}
OF_FILES = {**OF_BOTH, "Content-Security-Policy": FILES_POLICY, "Cache-Control": "no-store"}
TYPES = {".html": "text/html; charset=utf-8", ".css": "text/css; charset=utf-8", ".js": "text/javascript; charset=utf-8",
         ".svg": "image/svg+xml", ".png": "image/png", ".ico": "image/x-icon", ".webmanifest": "application/manifest+json"}
IS_FILESD = re.compile(r"/(?:remote\.php|public\.php|ocs)(?:[/?]|$)")
# Of one connection alone.
HOP = {"connection", "keep-alive", "proxy-connection", "te", "trailer", "transfer-encoding", "upgrade", "expect"}


class Door(http.server.BaseHTTPRequestHandler):
    """One connection of a browser."""

    protocol_version = "HTTP/1.1"
    disable_nagle_algorithm = True
    timeout = 60

    def answer(self, status, fields, body=b""):
        self.send_response_only(status)
        for name, value in {**fields, "Content-Length": str(len(body))}.items():
            self.send_header(name, value)
        if self.close_connection:
            self.send_header("Connection", "close")
        self.end_headers()
        if self.command != "HEAD":
            self.wfile.write(body)

    def refuse(self, status, reason):
        """As the proxies do, before filesd sees the request: its body isn't read, so nothing can follow over this connection."""
        self.close_connection = True
        self.answer(status, {**OF_FILES, "Content-Type": "application/json"}, b'{"reason":"%s"}' % reason.encode())

    def serve(self):
        if IS_FILESD.match(self.path):
            self.hand_on()
        else:
            self.page()

    do_GET = do_HEAD = do_PUT = do_POST = do_DELETE = do_MKCOL = do_MOVE = do_COPY = do_OPTIONS = do_PROPFIND = serve

    def page(self):
        if self.command not in ("GET", "HEAD"):
            self.close_connection = True
            return self.answer(405, {**OF_PAGE, "Allow": "GET, HEAD"})
        name = unquote(self.path.partition("?")[0]).lstrip("/") or "index.html"
        top = os.path.realpath(self.server.web)
        path = os.path.realpath(os.path.join(top, name.replace("\0", "")))
        if not path.startswith(top + os.sep) or not os.path.isfile(path):
            return self.answer(404, {**OF_PAGE, "Content-Type": "text/plain"}, b"There is no such page.\n")
        with open(path, "rb") as file:
            content = file.read()
        tag = f'"{hashlib.sha256(content).hexdigest()[:32]}"'
        fields = {**OF_PAGE, "ETag": tag}
        if self.headers.get("If-None-Match") == tag:
            return self.answer(304, fields)
        return self.answer(200, {**fields, "Content-Type": TYPES.get(os.path.splitext(path)[1], "application/octet-stream")}, content)

    def hand_on(self):
        """The request is taken whole before filesd has it, and so is the answer: a slow browser holds no worker of filesd."""
        if self.headers.get("Transfer-Encoding"):
            return self.refuse(501, "coding")
        length = self.headers.get("Content-Length", "0")
        if not re.fullmatch(r"\d{1,15}", length):
            return self.refuse(400, "bad-message")
        if int(length) > LARGEST:
            return self.refuse(413, "too-large")
        if self.command == "PUT" and "Content-Range" in self.headers:
            return self.refuse(400, "content-range")
        if any(name in self.headers for name in ("If", "If-Match", "If-None-Match")):
            return self.refuse(412, "condition")
        body = self.rfile.read(int(length))
        if len(body) != int(length):
            self.close_connection = True
            return None
        filesd = http.client.HTTPConnection(*self.server.filesd, timeout=120)
        try:
            filesd.putrequest(self.command, self.path, skip_host=True, skip_accept_encoding=True)
            for name, value in self.headers.items():
                if name.lower() not in HOP:
                    filesd.putheader(name, value)
            filesd.putheader("Connection", "close")
            filesd.endheaders(body)
            answer = filesd.getresponse()
            content = answer.read()
        except (http.client.InvalidURL, UnicodeError, ValueError):
            return self.refuse(400, "bad-message")
        except (OSError, http.client.HTTPException):
            return self.refuse(502, "away")
        finally:
            filesd.close()
        fields = {name: value for name, value in answer.getheaders() if name.lower() not in HOP | {"content-length"}}
        return self.answer(answer.status, {**fields, **OF_FILES}, content)

    def log_message(self, *_):
        """Nothing is logged: the token of a link stands in a path."""


class Proxy(http.server.ThreadingHTTPServer):
    """Listens on loopback, before filesd at an address and a port. `begin` serves beside whoever calls it."""

    daemon_threads = True
    request_queue_size = 64

    def __init__(self, filesd, port=0, web=os.path.join(ROOT, "web")):
        self.filesd, self.web = filesd, web
        super().__init__(("127.0.0.1", port), Door)
        self.port = self.server_address[1]

    def begin(self):
        threading.Thread(target=self.serve_forever, daemon=True).start()
        return self

    def handle_error(self, *_):
        """A browser that breaks off is no fault of this."""
