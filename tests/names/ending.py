#!/usr/bin/python3
"""Carries a command's lines to the socket of a grid in pipes, and instead of the answer to one of its writes interrupts the command.

    ending.py SOCKET NUMBER    which write, from 1
"""

import os
import signal
import socket
import sys
import threading


def bring(there, asked):
    """Lines `TO FROM write SESSION OP ..` are noted by session and number, in order, each once."""
    for line in sys.stdin.buffer:
        words = line.split(b" ", 5)
        if words[2] == b"write" and words[3:5] not in asked:
            asked.append(words[3:5])
        there.sendall(line)
    os._exit(0)


def main(path, number):
    there, asked = socket.socket(socket.AF_UNIX), []
    there.connect(path)
    threading.Thread(target=bring, args=(there, asked), daemon=True).start()
    for line in there.makefile("rb"):
        words = line.split(b" ", 6)
        if words[2:4] == [b"done", b"write"] and words[4:6] in asked[number - 1 :]:
            os.kill(os.getppid(), signal.SIGINT)
            os._exit(0)
        os.write(1, line)


main(sys.argv[1], int(sys.argv[2]))
