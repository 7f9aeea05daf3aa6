"""The socket by which clients come to a grid over pipes: who is given which answer."""

import os
import socket
import tempfile
import unittest

from histories import HERE

from gridfs_grid.callers import Callers

assert HERE


class Door(unittest.TestCase):
    def setUp(self):
        folder = tempfile.TemporaryDirectory()
        self.addCleanup(folder.cleanup)
        self.sent = []
        self.callers = Callers(os.path.join(folder.name, "socket"), self.sent.append)
        self.addCleanup(self.callers.end)
        self.clients = [self.client() for _ in range(3)]

    def client(self):
        client = socket.socket(socket.AF_UNIX)
        self.addCleanup(client.close)
        client.connect(self.callers.path)
        self.callers.take_in()
        return client

    def ask(self, client, *lines):
        self.clients[client].sendall(b"".join(line + b"\n" for line in lines))
        self.callers.hear(self.callers.callers[client])

    def told(self, line):
        """The clients that are given a line."""
        self.callers.tell(line)
        found = [number for number, caller in enumerate(self.callers.callers) if caller.waiting]
        for caller in self.callers.callers:
            caller.waiting.clear()
        return found

    def test_who_is_told(self):
        self.ask(0, b"1 ann read 3 7 0 0", b"1 ann look 4 0")
        self.ask(1, b"1 ann write 4 1 0 0 00", b"1 ann look 99 0", b"1 ann plan")
        self.ask(2, b"1 bob read 4 1 0 0")
        self.assertEqual(len(self.sent), 6)
        for body, wanted in (
            (b"done read 3 7 tag 1 1 -", [0]), (b"gone 3 7", [0]), (b"refused old 3 7 9", [0]), (b"refused home 2 3 7", [0]), (b"refused novolume 3 7 0", [0]),
            (b"done write 4 1 tag 1 4", [1]), (b"refused toolong 4 1 0 0 9", [1]), (b"refused nosession 4 1", [1]), (b"looked 4 0 0 -", [0]), (b"looked 99 0 0 -", [1]),
            (b"refused novolume 99 0", [1]), (b"refused novolume 4 0", [0]), (b"plan 1 0 4 9 9", [0, 1]), (b"refused bad", [0, 1]), (b"kept 3 17 0", [0, 1]), (b"refused full 3 17", [0, 1]),
            (b"done read 3 8 tag 1 1 -", [0, 1]), (b"refused early 3 9 7", [0, 1]), (b"done read 5 1 tag 1 1 -", [0, 1]), (b"looked 98 0 0 -", [0, 1]), (b"done", [0, 1]), (b"", [0, 1]),
        ):  # fmt: skip
            self.assertEqual(self.told(b"ann 1 " + body), wanted, body)
        self.assertEqual(self.told(b"bob 1 done read 4 1 tag 1 1 -"), [2])

    def test_lines_of_no_form(self):
        """They go to the node, as any line, and end nothing."""
        odd = [b"look", b"looked", b"read", b"read 3", b"refused", b"refused novolume", b"abandon", b"", b"done read"]
        self.ask(0, *(b"1 ann " + each for each in odd))
        self.assertEqual(self.sent, [b"1 ann " + each for each in odd])
        for each in odd:
            self.assertEqual(self.told(b"ann 1 " + each), [0], each)

    def test_two_who_ask_by_one_session(self):
        """As a gateway asks how far a session came that it has lent."""
        self.ask(0, b"1 ann read 3 7 0 0")
        self.ask(1, b"1 ann abandon 3 4000000000")
        self.assertEqual([self.told(b"ann 1 done read 3 7 tag 1 1 -"), self.told(b"ann 1 refused early 3 4000000000 7")], [[0], [1]])

    def test_the_last_who_asked(self):
        self.ask(0, b"1 ann read 3 7 0 0")
        self.ask(1, b"1 ann read 3 7 0 0")
        self.assertEqual(self.told(b"ann 1 done read 3 7 tag 1 1 -"), [1])
        self.ask(0, b"1 ann read 3 7 0 0")
        self.assertEqual(self.told(b"ann 1 done read 3 7 tag 1 1 -"), [0])
        self.clients[0].close()
        self.callers.hear(self.callers.callers[0])
        self.assertEqual(self.told(b"ann 1 done read 3 7 tag 1 1 -"), [0])  # (the second one, which is the first now)


if __name__ == "__main__":
    unittest.main()
