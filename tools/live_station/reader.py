"""One browser: what it requested, and what it has not taken yet."""
import contextlib
import socket
import time

# The most bytes of a request, and the most seconds that it may take.
MOST_ASKED, ASKING_SECONDS = 8_192, 5.0
# A reader that takes nothing for these seconds is dropped; and the bytes that the system keeps for it.
STALLED_SECONDS, KEPT = 5.0, 32_768
# After an answer, what the reader still sends is passed over for these seconds, so that the answer comes whole.
LEAVING_SECONDS = 1.0
PIECE = 4_096
ASKING, ANSWERED, FOLLOWING, LEAVING, GONE = range(5)
REASONS = {
    200: "OK",
    400: "Bad Request",
    404: "Not Found",
    405: "Method Not Allowed",
    431: "Request Header Fields Too Large",
    503: "Service Unavailable",
}
POLICY = "default-src 'none'; style-src 'unsafe-inline'; script-src 'unsafe-inline'; connect-src 'self'; img-src data:"


def answer(status: int, kind: str, body: bytes, more: str = "") -> bytes:
    """A whole answer."""
    head = f"HTTP/1.1 {status} {REASONS[status]}\r\nContent-Type: {kind}\r\nContent-Length: {len(body)}\r\n"
    head += f"Cache-Control: no-store\r\nX-Content-Type-Options: nosniff\r\nContent-Security-Policy: {POLICY}\r\n"
    return (head + more + "Connection: close\r\n\r\n").encode("ascii") + body


def refusal(status: int) -> bytes:
    more = "Allow: GET\r\n" if status == 405 else ""
    return answer(status, "text/plain; charset=utf-8", f"{status} {REASONS[status]}\n".encode("ascii"), more)


# The head of an answer that goes on.
FOLLOWED = (
    "HTTP/1.1 200 OK\r\nContent-Type: text/event-stream\r\nCache-Control: no-store\r\n"
    "X-Content-Type-Options: nosniff\r\nConnection: close\r\n\r\nretry: 1000\n\n"
).encode("ascii")


def asked(request: bytes) -> tuple[int, str]:
    """The path that a request is for, with 200; or a status that refuses it."""
    words = request.split(b"\r\n", 1)[0].split(b" ")
    if len(words) != 3 or not words[2].startswith(b"HTTP/1."):
        return 400, ""
    if words[0] != b"GET":
        return 405, ""
    return 200, words[1].split(b"?")[0].decode("ascii", "replace")


class Reader:
    """A connection, which never waits."""

    def __init__(self, connection: socket.socket) -> None:
        self.connection = connection
        connection.setblocking(False)
        with contextlib.suppress(OSError):
            connection.setsockopt(socket.SOL_SOCKET, socket.SO_SNDBUF, KEPT)
            connection.setsockopt(socket.IPPROTO_TCP, socket.TCP_NODELAY, 1)
        self.state = ASKING
        self.request = b""
        self.kept = b""
        # Since when it is requesting, takes nothing, or leaves.
        self.since = time.monotonic()
        # It takes less than there is: a message was left out.
        self.has_missed = False

    def hear(self) -> bytes | None:
        """A whole request, once; what comes later is passed over. It is gone if its connection is closed."""
        try:
            piece = self.connection.recv(PIECE)
        except BlockingIOError:
            return None
        except OSError:
            piece = b""
        if not piece:
            self.state = GONE
            return None
        if self.state != ASKING:
            return None
        self.request += piece
        end = self.request.find(b"\r\n\r\n")
        if end > MOST_ASKED or end < 0 and len(self.request) > MOST_ASKED:
            self.give(refusal(431))
            return None
        return None if end < 0 else self.request

    def give(self, data: bytes) -> None:
        """A whole answer, behind which it is left."""
        self.state = ANSWERED
        self.send(data)

    def follow(self, data: bytes) -> None:
        """The beginning of an answer that goes on."""
        self.state = FOLLOWING
        self.send(FOLLOWED + data)

    def send(self, data: bytes) -> None:
        """A message. It is left out if one before was not taken yet."""
        if self.kept:
            self.has_missed = True
            return
        self.since = time.monotonic()
        self.kept = data
        self.push()

    def push(self) -> None:
        try:
            while self.kept:
                self.kept = self.kept[self.connection.send(self.kept) :]
                self.since = time.monotonic()
        except BlockingIOError:
            return
        except OSError:
            self.state = GONE
            return
        if self.state == ANSWERED:
            self.state, self.since = LEAVING, time.monotonic()
            with contextlib.suppress(OSError):
                self.connection.shutdown(socket.SHUT_WR)

    def is_over(self, now: float) -> bool:
        """It is to be dropped."""
        if self.state == GONE:
            return True
        if self.state == FOLLOWING and not self.kept:
            return False
        patience = {ASKING: ASKING_SECONDS, LEAVING: LEAVING_SECONDS}.get(self.state, STALLED_SECONDS)
        return now - self.since > patience
