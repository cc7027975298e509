"""Messages of the protocol: a head with the length of what follows, and JSON."""

import json
import threading

# Clients send some kilobytes at most.
LONGEST, LONGEST_LINE, MOST_LINES = 16_777_216, 4096, 32


class Broken(Exception):
    """The input is no longer told apart into messages."""


class NoMessage(Exception):
    """What came has a length, and is no message."""


class Wire:
    def __init__(self, reader, writer):
        self.reader, self.writer, self.sent, self.lock = reader, writer, 0, threading.Lock()

    def receive(self):
        """The next message; None at the end of the input."""
        length = self.length()
        if length is None:
            return None
        body = self.reader.read(length)
        if len(body) < length:
            raise Broken("the input ends in a message")
        try:
            message = json.loads(body.decode("utf-8"))
        except (ValueError, RecursionError):
            raise NoMessage("no JSON") from None
        if not isinstance(message, dict) or message.get("type") != "request" or not isinstance(message.get("command"), str):
            raise NoMessage("no request")
        return message

    def length(self):
        """The length that the head tells; None at the end of the input."""
        length = None
        for _ in range(MOST_LINES):
            line = self.reader.readline(LONGEST_LINE)
            if not line:
                return None
            name, colon, value = line.partition(b":")
            if colon and name.strip().lower() == b"content-length":
                length = self.number(value)
            elif not line.strip() and length is not None:
                return length
        raise Broken("no head of a message")

    def number(self, value):
        if not value.strip().isdigit() or len(value) > 20 or int(value) > LONGEST:
            raise Broken("no length of a message")
        return int(value)

    def send(self, kind, **fields):
        with self.lock:
            self.sent += 1
            body = json.dumps({"seq": self.sent, "type": kind, **fields}).encode("ascii")
            self.writer.write(b"Content-Length: %d\r\n\r\n" % len(body) + body)
            self.writer.flush()
