"""The messages that tools/try-hostile sends, each with the statuses that answer it."""
import random
import re
import socket
import struct

from trying import FILES, TOKEN, check, known

HEAD = f"\r\nHost: x\r\n{TOKEN}\r\n".encode()
GET = f"GET {FILES}hello.txt HTTP/1.1".encode() + HEAD
PUT = f"PUT {FILES}victim HTTP/1.1".encode() + HEAD
# What stands behind a message or inside its body, and must not be done.
HIDDEN = f"PUT {FILES}smuggled HTTP/1.1".encode() + HEAD + b"Content-Length: 0\r\n\r\n"
LENGTH = b"Content-Length: %d\r\n" % len(HIDDEN)


def fields(count):
    return b"".join(b"X-%d: y\r\n" % number for number in range(count))


# Heads without their empty line, behind which HIDDEN stands. They are refused, and end the session.
REFUSED = [
    ("two lengths that differ", PUT + b"Content-Length: 0\r\n" + LENGTH, 400),
    ("two lengths that are the same", PUT + LENGTH + LENGTH, 400),
    ("a length and a coding", PUT + LENGTH + b"Transfer-Encoding: chunked\r\n", 501),
    ("a coding and a length", PUT + b"Transfer-Encoding: chunked\r\n" + LENGTH, 501),
    ("the coding `identity`", PUT + b"Transfer-Encoding: identity\r\n" + LENGTH, 501),
    ("a blank before the colon of a coding", PUT + b"Transfer-Encoding : chunked\r\n" + LENGTH, 400),
    ("the length `+5`", PUT + b"Content-Length: +5\r\n", 400),
    ("the length ` 5 ,5`", PUT + b"Content-Length:  5 ,5\r\n", 400),
    ("the length `0x5`", PUT + b"Content-Length: 0x5\r\n", 400),
    ("the length `-5`", PUT + b"Content-Length: -5\r\n", 400),
    ("an empty length", PUT + b"Content-Length:\r\n", 400),
    ("a blank before the colon of a length", PUT + b"Content-Length : 5\r\n", 400),
    ("a length on a line of its own (obs-fold)", PUT + b"Content-Length:\r\n 5\r\n", 400),
    ("a field that goes on in the next line (obs-fold)", PUT + b"X-A: b\r\n c\r\n" + LENGTH, 400),
    ("a bare CR in a field's value", PUT + b"X-A: b\rContent-Length: 0\r\n" + LENGTH, 400),
    ("a bare CR before the line's end", PUT + b"Content-Length: 5\r\r\n", 400),
    ("bare CRs for line ends", PUT.replace(b"\r\n", b"\r") + b"\r", 400),
    ("a bare CR in the target", GET.replace(b"hello", b"hel\rlo"), 400),
    ("a NUL in a field's value", PUT + b"X-A: b\0c\r\n" + LENGTH, 400),
    ("a NUL in a field's name", PUT + b"X\0A: b\r\n" + LENGTH, 400),
    ("two blanks behind the method", GET.replace(b" ", b"  ", 1), 400),
    ("two blanks behind the target", GET.replace(b" HTTP", b"  HTTP"), 400),
    ("tabs in the request line", GET.replace(b" /", b"\t/", 1), 400),
    ("a length of 20 digits", PUT + b"Content-Length: 00000000000000000005\r\n", 400),
    ("the length 2^64 + 5", PUT + b"Content-Length: 18446744073709551621\r\n", 400),
    ("the length 2^64", PUT + b"Content-Length: 18446744073709551616\r\n", 400),
    ("the length 2^63", PUT + b"Content-Length: 9223372036854775808\r\n", 413),
    ("the length 2^32 + 5", PUT + b"Content-Length: 4294967301\r\n", 413),
    ("65 fields", GET + fields(63), 431),
    ("100 fields", GET + fields(98), 431),
    ("a field of 10 KB", GET + b"X-A: " + b"y" * 10240 + b"\r\n", 431),
    ("a target of 9 KB", GET.replace(b"hello", b"y" * 9216), 431),
    ("HTTP/0.9", GET.split(b" HTTP")[0] + b"\r\n", 400),
    ("the preface of HTTP/2", b"PRI * HTTP/2.0\r\n\r\nSM\r\n", 400),
    ("a TLS client hello", bytes.fromhex("160301006f0100006b0303") + bytes(100), 400),
]

# Whole heads, whose body is HIDDEN. They are taken, and so is the GET behind them.
INSIDE = [
    ("a GET with a body", GET + LENGTH + b"\r\n", 200),
    ("a refused DELETE with a body", GET.replace(b"GET", b"DELETE").replace(b"hello.txt", b"none") + LENGTH + b"\r\n", 404),
    ("a PUT whose length has leading zeros", PUT + LENGTH.replace(b": ", b": 000") + b"\r\n", 201),
    ("a PUT whose length stands between tabs", PUT + LENGTH.replace(b" ", b"\t").replace(b"\r", b"\t\r") + b"\r\n", 204),
    ("a PUT with line ends of LF alone", (PUT + LENGTH + b"\r\n").replace(b"\r\n", b"\n"), 204),
    ("a PUT with line ends of LF and of CR LF", PUT + LENGTH + b"\n", 204),
    ("a PUT with an Expect that is none", PUT + b"Expect: banana\r\n" + LENGTH + b"\r\n", 204),
    ("a PUT behind empty lines", b"\r\n\r\n" + PUT + LENGTH + b"\r\n", 204),
    ("a PUT with 64 fields", PUT + fields(61) + LENGTH + b"\r\n", 204),
]

# What is answered otherwise than the standard wants: what is right, and what is seen.
WRONG = [
    ("HTTP/1.1 without a Host", GET.replace(b"Host: x\r\n", b""), "400", "200: it is answered as any (RFC 9112, 3.2)"),
    ("two Hosts", GET + b"Host: y\r\n", "400", "200: it is answered as any (RFC 9112, 3.2)"),
    ("HTTP/1.2", GET.replace(b"/1.1", b"/1.2"), "200", "400: not taken for HTTP/1.1 (RFC 9110, 2.5)"),
]


def connect(server, timeout=10):
    return socket.create_connection(("127.0.0.1", server.port), timeout=timeout)


def talk(server, data, ends=False, timeout=1.5):
    """Sends the bytes, and gives the statuses of the answers and whether the server closed the connection."""
    got, is_closed = b"", True
    with connect(server, timeout) as one:
        try:
            one.sendall(data)
            if ends:
                one.shutdown(socket.SHUT_WR)
            while chunk := one.recv(65536):
                got += chunk
        except TimeoutError:
            is_closed = False
        except OSError:
            pass
    return [int(code) for code in re.findall(rb"HTTP/1\.1 (\d{3}) ", got)], is_closed


def messages(server, limit):
    for what, head, code in REFUSED:
        seen = talk(server, head + b"\r\n" + HIDDEN)
        check(f"{what}: {code}, closed, and nothing behind it is answered", seen == ([code], True), seen)
    for what, head, code in INSIDE:
        seen = talk(server, head + HIDDEN + GET + b"\r\n")
        check(f"{what} that holds a request: {code}, and 200 to the one behind it", seen == ([code, 200], False), seen)
    check("none of the hidden requests was done", server.ask("GET", "smuggled")[0] == 404 and server.ask("GET", "victim")[1] == HIDDEN)
    part = PUT.replace(b"victim", b"cut") + b"Content-Length: 100\r\n\r\n" + b"x" * 50
    seen = talk(server, part, ends=True)
    check("a body shorter than said, then the end: 400, closed", seen == ([400], True), seen)
    with connect(server) as one:
        one.sendall(part)
    with connect(server) as one:
        one.sendall(part)
        one.setsockopt(socket.SOL_SOCKET, socket.SO_LINGER, struct.pack("ii", 1, 0))
    seen = talk(server, part, timeout=limit + 3)
    check(f"a body shorter than said, then silence: no answer, closed within {limit + 3} s", seen == ([], True), seen)
    check("of four such bodies nothing was stored", server.ask("GET", "cut")[0] == 404)
    seen = talk(server, PUT + b"Content-Length: 3\r\n\r\nhello " + HIDDEN)
    check("a body longer than said: 204, then 400 to what follows, closed", seen == ([204, 400], True), seen)
    chance, kinds = random.Random(1), {}
    for _ in range(300):
        seen = talk(server, chance.randbytes(chance.randrange(1, 10_000)), ends=True, timeout=5)
        kinds[str(seen)] = kinds.get(str(seen), 0) + 1
    check(f"300 times random bytes and the end, {kinds}: each 400 or 431, and closed", set(kinds) <= {"([400], True)", "([431], True)"})
    for what, head, right, wrong in WRONG:
        known(what, right, " ".join(map(str, talk(server, head + b"\r\n")[0])), wrong)
