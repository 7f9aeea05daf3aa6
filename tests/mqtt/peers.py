"""What the tests stand at the other ends of a carrier: a broker that says anything, and a node's command in a few lines of Python."""

import os
import re
import signal
import socket
import subprocess
import sys
import threading
import time

from grid_commands import CLIENT, SECONDS, wait_for

HERE = os.path.dirname(os.path.abspath(__file__))
DEPLOY = os.path.join(HERE, "..", "..", "deploy", "mqtt")


def text16(text):
    return len(text).to_bytes(2, "big") + text


def packet(kind, body):
    """A packet of MQTT: its kind, its length in groups of seven bits, its body."""
    size, left = b"", len(body)
    while True:
        size += bytes([left % 128 | (128 if left > 127 else 0)])
        left //= 128
        if not left:
            return bytes([kind]) + size + body


def message(topic, body, retain=False):
    return packet(0x31 if retain else 0x30, text16(topic) + body)


class Broker:
    """Takes one carrier after another. `said` is what it was told, in order; `tells` sends a message of any topic. `answer` is its word to
    each that comes, if any; with `echo` it gives back what a carrier tells itself; while `reads` is false it takes nothing."""

    def __init__(self, port=0, answer=0, echo=True):
        self.listener = socket.create_server(("127.0.0.1", port))
        self.port, self.answer, self.echo = self.listener.getsockname()[1], answer, echo
        self.said, self.peer, self.reads, self.subscribed, self.is_open = [], None, True, 0, True
        threading.Thread(target=self.run, daemon=True).start()

    def run(self):
        while self.is_open:
            try:
                peer, _ = self.listener.accept()
                if not self.is_open:
                    return peer.close()
                self.peer = peer
                self.serve(peer, peer.makefile("rb"))
            except (OSError, EOFError, ValueError):
                pass

    def take(self, stream, count):
        while not self.reads:
            time.sleep(0.01)
        came = stream.read(count)
        if len(came) < count:
            raise EOFError
        return came

    def serve(self, peer, stream):
        while True:
            kind, size, shift, byte = self.take(stream, 1)[0], 0, 0, 128
            while byte > 127:
                byte = self.take(stream, 1)[0]
                size |= (byte & 127) << shift
                shift += 7
            body = self.take(stream, size)
            if kind >> 4 == 1 and self.answer is not None:
                peer.sendall(packet(0x20, bytes([0, self.answer])))
            elif kind >> 4 == 8:
                peer.sendall(packet(0x90, body[:2] + b"\0"))
                self.subscribed += 1
            elif kind >> 4 == 12:
                peer.sendall(packet(0xD0, b""))
            elif kind >> 4 == 3:
                size = int.from_bytes(body[:2], "big")
                self.said.append((body[2 : 2 + size].decode(), body[2 + size :]))
                if self.echo and not body[2 + size :]:
                    peer.sendall(packet(0x30, body))

    def lines(self, topic):
        """The lines that it was told under a topic."""
        return [line for under, body in list(self.said) if under == topic and body for line in body.split(b"\n")]

    def tells(self, topic, body, retain=False):
        self.peer.sendall(message(topic, body, retain))

    def end(self):
        self.is_open = False
        for each in (self.peer, self.listener):
            try:
                each.shutdown(socket.SHUT_RDWR)
            except (OSError, AttributeError):
                pass
            if each:
                each.close()


class Carry:
    """A carrier with its command, and what it tells on standard error."""

    def __init__(self, program, port, command, *words, number="0", password="secret", host="127.0.0.1", environment=None):
        if not os.path.exists("secret"):
            with open("secret", "w", encoding="ascii") as out:
                out.write("word\n")
            os.chmod("secret", 0o600)
        words = [program, "--broker", f"{host}:{port}", "--password-file", password, *words, number, "--", *command]
        self.lines = []
        self.process = subprocess.Popen(
            words, stdin=subprocess.DEVNULL, stdout=subprocess.DEVNULL, stderr=subprocess.PIPE, env={**os.environ, **(environment or {})}
        )
        self.listener = threading.Thread(target=self.listen, daemon=True)
        self.listener.start()

    def listen(self):
        for line in self.process.stderr:
            self.lines.append(line.decode("latin1").rstrip("\n"))

    def says(self, text, seconds=SECONDS):
        return wait_for(lambda: self.many(text), seconds)

    def many(self, text):
        return sum(text in line for line in self.lines)

    def first(self):
        return (self.lines or [""])[0]

    def stop(self):
        """Has it end by SIGTERM; its status."""
        self.process.terminate()
        return self.status()

    def status(self):
        try:
            status = self.process.wait(SECONDS)
        except subprocess.TimeoutExpired:
            self.process.kill()
            status = "not ended"
        self.listener.join(SECONDS)
        return status

    def child(self):
        with open(f"/proc/{self.process.pid}/task/{self.process.pid}/children") as file:
            return int(file.read().split()[0])

    def memory(self):
        """The most MiB that it had."""
        with open(f"/proc/{self.process.pid}/status") as file:
            return int(re.search(r"VmHWM:\s*(\d+)", file.read()).group(1)) / 1024

    def counts(self):
        for line in reversed(self.lines):
            if line.startswith("carry: in "):
                words = line.split()[1:]
                return dict(zip(words[::2], map(int, words[1::2])))
        return {}


def node(text):
    """A command of lines of Python, in which `put` writes bytes."""
    return [sys.executable, "-c", "import os, sys, time\ndef put(text):\n    while text:\n        text = text[os.write(1, text):]\n" + text]


# Keeps what it is given in the file `got`.
COPY = "got = open('got', 'wb', 0)\nwhile True:\n    text = os.read(0, 1 << 20)\n    if not text: break\n    got.write(text)\n"


def got(ticks=False):
    """The lines that the node was given, with ticks and greetings or without."""
    with open("got", "rb") as file:
        return [line for line in file.read().split(b"\n") if ticks or line not in (b"0 0 tick", b"0 0 greet")]


def got_size():
    return os.path.getsize("got")


def end_all(processes):
    """Ends processes that were started here, one by one."""
    for each in processes:
        if each.poll() is None:
            each.send_signal(signal.SIGCONT)
            each.kill()
        each.wait()


class Speaker:
    """What anybody can do who has a connection to a broker: says any message under any topic, and hears what comes. `is_let_in` tells
    whether the broker took the user and the password; without a user it comes as nobody."""

    def __init__(self, port, user=None, password=None, name=None, context=None):
        self.peer = socket.create_connection(("localhost", port), SECONDS)
        if context:
            self.peer = context.wrap_socket(self.peer, server_hostname="localhost")
        self.heard = []
        flags = b"\xc2" if user else b"\x02"
        body = text16(b"MQTT") + b"\x04" + flags + b"\0\0" + text16((name or user or "nobody").encode())
        if user:
            body += text16(user.encode()) + text16(password.encode())
        self.is_let_in = False
        try:
            self.peer.sendall(packet(0x10, body))
            self.is_let_in = self.peer.recv(4) == b"\x20\x02\0\0"
        except OSError:
            pass
        if self.is_let_in:
            self.peer.settimeout(None)
            threading.Thread(target=self.listen, args=(self.peer.makefile("rb"),), daemon=True).start()

    def listen(self, stream):
        """Keeps each message that comes: its topic and its body."""
        try:
            while True:
                kind, size, shift, byte = stream.read(1)[0], 0, 0, 128
                while byte > 127:
                    byte = stream.read(1)[0]
                    size |= (byte & 127) << shift
                    shift += 7
                body = stream.read(size)
                if kind >> 4 == 3:
                    length = int.from_bytes(body[:2], "big")
                    self.heard.append((body[2 : 2 + length].decode(), body[2 + length :]))
        except (OSError, IndexError, ValueError):
            pass

    def listen_to(self, *topics):
        for topic in topics:
            self.peer.sendall(packet(0x82, b"\0\1" + text16(topic.encode()) + b"\0"))

    def say(self, topic, body):
        self.peer.sendall(message(topic.encode(), body))

    def end(self):
        try:
            self.peer.shutdown(socket.SHUT_RDWR)
        except OSError:
            pass
        self.peer.close()
