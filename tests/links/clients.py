"""What the client's transport over links owes, with a stand-in for a node, or without one."""

import os
import shutil
import signal
import socket
import ssl
import struct
import sys
import threading
import time

from carrying import HERE, NODE, PLAN, Carry, check, free_ports, fresh, set_up, wait_for

sys.path.insert(0, os.path.join(HERE, "..", "..", "clients", "python"))
from gridfs_client import settings
from gridfs_client.answers import Done, PlanTold
from gridfs_client.asking import ask_plan
from gridfs_client.errors import BadSettings, CarrierFault
from gridfs_client.links import MOST_WAITS, READ, LinkCarrier
from gridfs_client.sessions import Pace
from gridfs_client.settings import Settings


def carrier(links, hosts=None, authority=None, name="ann", patience=1.0):
    at = lambda what: os.path.join(links, what)
    return LinkCarrier("ann", hosts or at("hosts"), authority or at("ca.crt"), at(f"secret/{name}.crt"), at(f"secret/{name}.key"), patience)


def fault_of(call, seconds=10.0):
    """The fault of a call, which comes in time."""
    begun = time.monotonic()
    try:
        call()
    except CarrierFault as fault:
        check(time.monotonic() - begun < seconds, f"{fault}: told after {time.monotonic() - begun:.1f} s")
        return str(fault)
    check(False, "no fault")


def what_a_client_is_told(program, folder):
    carry = fresh(program, folder, PLAN)
    other = set_up(os.path.join(folder, "other"))
    try:
        with open(os.path.join(folder, "alone"), "w") as out, open(os.path.join(carry.links, "hosts")) as hosts:
            out.write(next(line for line in hosts if line.startswith("0 ")))
        alone = os.path.join(folder, "alone")
        for text, says in (("", "names no node"), ("0 here there\n", "line 1"), ("0 a:1 b:70000\n", "line 1"), ("x\n", "line 1")):
            with open(os.path.join(folder, "bad"), "w") as out:
                out.write(text)
            check(says in fault_of(lambda: carrier(carry.links, os.path.join(folder, "bad"))), text)
        check("No such file" in fault_of(lambda: carrier(carry.links, os.path.join(folder, "no"))), "hosts")
        check("No such file" in fault_of(lambda: carrier(carry.links, authority=os.path.join(folder, "no"))), "authority")
        os.chmod(os.path.join(carry.links, "secret", "bob.key"), 0o644)
        check("others may read" in fault_of(lambda: carrier(carry.links, name="bob")), "a key that others may read")
        told = fault_of(lambda: ask_plan(carrier(carry.links, alone, os.path.join(other, "ca.crt")), Pace(timeout=20)), 5)
        check("self-signed" in told or "unable to get" in told or "verify" in told or "signature" in told, told)
        for name in ("crt", "key"):
            shutil.copy(os.path.join(other, "secret", f"ann.{name}"), os.path.join(carry.links, "secret", f"zed.{name}"))
        told = fault_of(lambda: ask_plan(carrier(carry.links, alone, name="zed"), Pace(timeout=20)), 5)
        check("does not take the certificate" in told, told)
        for name in ("crt", "key"):
            shutil.copy(os.path.join(carry.links, "secret", f"ann.{name}"), os.path.join(carry.links, "secret", f"was.{name}"))
        set_up(folder, PLAN, "--deny", "ann")
        carry.process.send_signal(signal.SIGHUP)
        told = fault_of(lambda: ask_plan(carrier(carry.links, alone, name="was", patience=30), Pace(timeout=30)), 12)
        check("all 1 nodes refuse the certificate, which may be denied" in told, told)
        told = fault_of(lambda: ask_plan(carrier(carry.links, alone, name="was", patience=30), Pace(timeout=2)), 5)
        check("may be denied" in told, told)
        with open(alone, "w") as out:
            out.write("0 127.0.0.1:1 127.0.0.1:1\n")
        check("refused" in fault_of(lambda: ask_plan(carrier(carry.links, alone), Pace(timeout=20)), 8), "no node")
    finally:
        carry.end()


def where_no_way_is_named(_, folder):
    """Links are taken, by the files in /etc/gridfs; where there is a password, a broker has to be named."""
    at = lambda what: os.path.join(set_up(folder, PLAN, "--local", str(free_ports(4))), what)
    given = {"tenant": "ann", "timeout": "1", "certificate": at("secret/ann.crt"), "key": at("secret/ann.key")}
    usual, kept = Settings(given), (settings.HOSTS, settings.AUTHORITY)
    check(kept == ("/etc/gridfs/hosts", "/etc/gridfs/ca.crt"), f"other files than the pages say: {kept}")
    try:
        settings.HOSTS, settings.AUTHORITY = os.path.join(folder, "none"), at("ca.crt")
        check(settings.HOSTS in fault_of(usual.carrier), "another file of hosts is read")
        settings.HOSTS = at("hosts")
        check(isinstance(usual.carrier(), LinkCarrier), "another way is taken")
    finally:
        settings.HOSTS, settings.AUTHORITY = kept
    try:
        Settings({"tenant": "ann", "timeout": "1", "password-file": at("secret/ann.key")}).carrier()
        check(False, "a broker is asked that nobody named")
    except BadSettings as fault:
        check("broker is not set" in str(fault), str(fault))


def sessions_side_by_side(program, folder):
    """Threads that wait for answers at once, of which one reads for all; and a link that ends and is made again."""
    carry = fresh(program, folder, PLAN)
    links, told = carrier(carry.links), []
    try:
        links.attach(0)
        links.send(0, b"plan")
        carry.gets(b"0 ann plan")
        carry.says(b"ann 0 plan 2 0 16 8 2 2.2\n")
        answer = links.receive(0, 5) or links.receive(0, 5)  # (the first one only says that there is something new)
        check(isinstance(answer, PlanTold), f"no plan: {answer}")

        def ask(number):
            for operation in range(1, 101):
                links.send(0, b"read %d %d 0 0" % (number, operation))
                answer = links.receive(number, 10)
                while answer is None:
                    answer = links.receive(number, 10)
                if not isinstance(answer, Done) or (answer.session, answer.operation) != (number, operation):
                    told.append((number, operation, answer))

        for number in range(1, 9):
            links.attach(number)
        threads = [threading.Thread(target=ask, args=(number,)) for number in range(1, 9)]
        for thread in threads:
            thread.start()
        seen = 0
        until = time.monotonic() + 60
        while any(thread.is_alive() for thread in threads) and time.monotonic() < until:
            lines = [line.split() for line in carry.lines()]
            for words in lines[seen:]:
                if words[2] == b"read":
                    carry.says(b"ann 0 done read %s %s tag 0 0 -\n" % (words[3], words[4]))
            seen = len(lines)
            time.sleep(0.001)
        check(not any(thread.is_alive() for thread in threads), "some wait for ever")
        check(not told, f"told another's: {told[:3]}")
        carry.end()
        again = Carry(program, folder, 0, NODE).ready()
        try:
            wait_for(lambda: links.receive(1, 0.05) is None and (links.send(0, b"read 1 101 0 0") or b"0 ann read 1 101 0 0" in again.lines()), "the link is not made again")
            again.says(b"ann 0 done read 1 101 tag 0 0 -\n")
            answer = links.receive(1, 5)
            check(isinstance(answer, Done) and answer.operation == 101, f"{answer}")
        finally:
            again.end()
    finally:
        links.close()
        if carry.process.poll() is None:
            carry.end()


def a_link_that_breaks_amid_a_send(_, folder):
    """A node that takes no more, and then dies: the link is given up, and lines go to it once it is there again."""
    links = set_up(folder, PLAN, "--local", str(free_ports(4)))
    with open(os.path.join(links, "hosts"), encoding="ascii") as file:
        port = next(int(line.rpartition(":")[2]) for line in file if line.startswith("0 "))
    context = ssl.SSLContext(ssl.PROTOCOL_TLS_SERVER)
    context.load_cert_chain(os.path.join(links, "secret", "0.crt"), os.path.join(links, "secret", "0.key"))
    client = carrier(links)
    with socket.create_server(("127.0.0.1", port)) as listener:

        def come():
            """The link's end at the node, once the client has made it."""
            client.send(0, b"plan")
            made = context.wrap_socket(listener.accept()[0], server_side=True)
            wait_for(lambda: client.links[0].socket, "no link")
            return made

        for _ in range(2):
            node = come()
            while not client.would_lose(0, READ):
                client.send(0, b"x" * READ)
            waits = client.links[0].waiting
            client.send(0, b"x" * READ)
            check(MOST_WAITS - READ < waits == client.links[0].waiting <= MOST_WAITS, f"{waits} bytes wait, and then {client.links[0].waiting}")
            node.setsockopt(socket.SOL_SOCKET, socket.SO_LINGER, struct.pack("ii", 1, 0))
            node.close()
            wait_for(lambda: client.send(0, b"y") or client.links[0].socket is None, "it holds a link that was reset")
            wait_for(lambda: time.monotonic() > client.links[0].next_try, "it waits for ever")
        node = come()
        check(node.recv(4) == b"plan", "the first line by a new link")
        node.close()
    client.close()


def new_certificates(program, folder):
    """Another authority and certificates of its own: who runs goes on by them, once the node has read them too. Amid their making it goes on by the old ones."""
    carry = fresh(program, folder, PLAN)
    links = carrier(carry.links, patience=60)
    try:
        links.attach(1)

        def is_given(line):
            links.send(0, line)
            links.receive(1, 0.05)
            return b"0 ann " + line in carry.lines()

        wait_for(lambda: is_given(b"read 1 1 0 0"), "no link")
        key = os.path.join(carry.links, "secret", "ann.key")
        with open(key, encoding="ascii") as file:
            before = file.read()
        with open(key, "w", encoding="ascii") as out:
            out.write("no key\n")
        with links.guard:
            links.broken(0, "as by a node that ends")
        wait_for(lambda: is_given(b"read 1 2 0 0"), "a key that is being written ends it")
        with open(key, "w", encoding="ascii") as out:
            out.write(before)
        for name in ("ca.crt", "ca.key"):
            os.unlink(os.path.join(carry.links, name))
        set_up(folder)
        carry.process.send_signal(signal.SIGHUP)
        wait_for(lambda: links.links[0].socket is None or is_given(b"read 1 3 0 0"), "the link by the old certificate stays")
        wait_for(lambda: is_given(b"read 1 4 0 0"), "it does not go on by the new certificate", 15)
    finally:
        links.close()
        carry.end()


CHECKS = [what_a_client_is_told, where_no_way_is_named, sessions_side_by_side, a_link_that_breaks_amid_a_send, new_certificates]
