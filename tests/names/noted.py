"""The history of one client of a trial: each operation stands in it when it begins, and when it has ended."""

import hashlib
import json
import os
import time

from histories import HERE  # (and where the client is found)

from gridfs_client import ClientError, NoRoom, NoSuchName

assert HERE


class Noted:
    """Operations that are appended to a file of lines in JSON. Other processes append to it too."""

    def __init__(self, path, process):
        self.out, self.process, self.serial = os.open(path, os.O_WRONLY | os.O_CREAT | os.O_APPEND, 0o600), process, 0

    def note(self, **event):
        event = dict(event, time=time.monotonic_ns(), process=self.process, serial=self.serial)
        os.write(self.out, (json.dumps(event) + "\n").encode())

    def content(self, draw, size):
        """A content that no other operation puts: it begins with this one's number."""
        content = f"{self.process} {self.serial} ".encode()
        return content + draw.randbytes(max(0, size - len(content)))

    def operate(self, files, kind, name, content, source=None):
        """One operation; `source` is what is put where it isn't the content itself. The status to end with where it failed, else None."""
        self.note(type="begins", kind=kind, name=name, value=hashlib.sha256(content).hexdigest() if kind == "put" else None)
        told = None
        try:
            if kind == "put":
                files.put(name, content if source is None else source)
            elif kind == "remove":
                files.remove(name)
            elif kind == "get":
                told = hashlib.sha256(files.get(name)[0]).hexdigest()
            else:
                told = {entry.name: entry.sha256 for entry in files.names()}
        except NoSuchName:
            self.note(type="absent")
        except NoRoom:
            self.note(type="noroom")
        except ClientError as fault:
            self.note(type="fault", fault=f"{type(fault).__name__}: {fault}")
            return fault.status
        else:
            self.note(type="done", told=told)
        return None
