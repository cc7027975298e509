"""A small client of the Debug Adapter Protocol, which asks tools/dap as an editor does."""

import json
import os
import queue
import subprocess
import sys
import threading
import time

from tools_path import TOOLS

LONGEST_WAIT = 120


class Editor:
    """One session with an adapter. What it sends is kept in `events`, and the answers are given back."""

    def __init__(self, program, cwd):
        words = [sys.executable, os.path.join(TOOLS, "dap"), "--program", program]
        self.adapter = subprocess.Popen(words, stdin=subprocess.PIPE, stdout=subprocess.PIPE, stderr=subprocess.PIPE, cwd=cwd)
        self.seq, self.events, self.came, self.spent = 0, [], queue.Queue(), {}
        threading.Thread(target=self.read, daemon=True).start()

    def read(self):
        while line := self.adapter.stdout.readline():
            length = int(line.split(b":")[1])
            self.adapter.stdout.readline()
            self.came.put(json.loads(self.adapter.stdout.read(length)))
        self.came.put(None)

    def send(self, command, arguments):
        self.seq += 1
        body = json.dumps({"seq": self.seq, "type": "request", "command": command, "arguments": arguments}).encode()
        self.write(b"Content-Length: %d\r\n\r\n" % len(body) + body)
        return self.seq

    def write(self, data):
        self.adapter.stdin.write(data)
        self.adapter.stdin.flush()

    def next(self):
        message = self.came.get(timeout=LONGEST_WAIT)
        if message is None:
            raise EOFError("the adapter ended")
        if message["type"] == "event":
            self.events.append(message)
        return message

    def answer(self, seq):
        while True:
            message = self.next()
            if message["type"] == "response" and message["request_seq"] == seq:
                return message

    def ask(self, command, **arguments):
        """The body of the answer to a request that succeeds."""
        begun = time.monotonic()
        answer = self.answer(self.send(command, arguments))
        self.spent[command] = max(self.spent.get(command, 0), time.monotonic() - begun)
        assert answer["success"], (command, arguments, answer)
        return answer.get("body")

    def refused(self, command, **arguments):
        """The words by which a request is refused."""
        answer = self.answer(self.send(command, arguments))
        assert not answer["success"] and answer["message"], (command, arguments, answer)
        return answer["message"]

    def event(self, name):
        """The next event of this name that comes, or came since the last one was asked for."""
        while True:
            for message in self.events:
                if message["event"] == name:
                    self.events.remove(message)
                    return message.get("body", {})
            self.next()

    def move(self, command, **arguments):
        """Position and reason of the stop that follows, and the stop."""
        begun = time.monotonic()
        self.ask(command, **arguments)
        stop = self.event("stopped")
        self.spent[command] = max(self.spent.get(command, 0), time.monotonic() - begun)
        return position_of(stop), stop["reason"], stop

    def output(self):
        """What was told since this was asked last."""
        told = [message for message in self.events if message["event"] == "output"]
        self.events = [message for message in self.events if message["event"] != "output"]
        return "".join(message["body"]["output"] for message in told)

    def end(self):
        """Disconnects, and tells status and errors of the adapter."""
        if self.adapter.poll() is None:
            self.ask("disconnect")
        status = self.adapter.wait(timeout=LONGEST_WAIT)
        return status, self.adapter.stderr.read().decode("utf-8", "replace")


def position_of(stop):
    return int(stop["description"].split()[1])
