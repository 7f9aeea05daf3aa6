"""What the command has to know: from its options, else the environment, else a file, else as it stands here."""

import configparser
import fcntl
import hashlib
import os
import re
import shlex
import time
from collections.abc import Callable, Mapping, Sequence
from contextlib import suppress
from functools import cached_property
from pathlib import Path
from typing import IO, NamedTuple

from .carriers import Carrier, ProcessCarrier, SocketCarrier
from .errors import BadSettings
from .grid import Shape
from .pages import GRID
from .sessions import Pace

SECTION = "gridfs"
HOSTS, AUTHORITY = "/etc/gridfs/hosts", "/etc/gridfs/ca.crt"  # of links, where none are named
GROWTH = 0  # in place of a session: who has a tenant's pages split waits for it
SILENT_FOR = 60.0  # seconds for which commands go to others first, once a node was silent


class Setting(NamedTuple):
    """What a setting is without any, the word for what it takes, and what it means."""

    default: str | None
    takes: str
    meaning: str


SETTINGS: dict[str, Setting] = {
    "tenant": Setting(None, "NAME", "the tenant's name"),
    "broker": Setting(None, "HOST:PORT", "the MQTT broker, by its port for tenants, in place of links"),
    "grid-name": Setting(None, "GRID", "the grid's name, where the broker has several"),
    "ca-file": Setting(None, "FILE", f"certificates of authorities: use TLS, and trust these ({AUTHORITY} over links)"),
    "password-file": Setting(None, "FILE", "its first line is the tenant's password; others may not read it"),
    "hosts": Setting(None, "FILE", f"where each node is: links to the nodes ({HOSTS} where no other way is named)"),
    "certificate": Setting(None, "FILE", "over links, the tenant's certificate"),
    "key": Setting(None, "FILE", "over links, its key; others may not read it"),
    "socket": Setting(None, "PATH", "a socket of ./grid, in place of links"),
    "via": Setting(None, "COMMAND", "a command that carries lines TO FROM BODY, in place of links"),
    "map": Setting(None, "FILE", "a map of several grids, which has the settings of each (gridfs-fleet), in place of a tenant and its grid"),
    "session": Setting("all", "N|N-M|all", "the first of these sessions that no other command here uses and whose home answers"),
    "helpers": Setting("3", "N", "how many more of these list many pages, besides"),
    "timeout": Setting("30", "SECONDS", "how long an answer is waited for, from the beginning of the command or from the last one"),
    "locks": Setting(None, "FOLDER", "where programs tell each other the sessions they use: one for all users of a tenant (~/.cache/gridfs, a folder for each grid)"),
    "grid": Setting(None, "ROWSxCOLUMNS", "how the nodes are arranged, as 2x3: nodes of before do not tell it"),
}
OF_GATEWAYS = {
    "peers-listen": Setting(None, "ADDRESS:PORT", "of a gateway of S3: where those of the tenant on other machines ask it what it changed"),
    "peers": Setting(None, "ADDRESS:PORT..", "where these are asked"),
}
NAME = re.compile(r"(?!server\Z)[a-z]{1,16}\Z")


def default_file() -> Path:
    return Path(os.environ.get("XDG_CONFIG_HOME") or Path.home() / ".config") / "gridfs" / "client.ini"


def default_locks() -> Path:
    """The same folder for all commands of a user, whatever started them: at a terminal XDG_RUNTIME_DIR is set, by cron it isn't."""
    return Path.home() / ".cache" / "gridfs"


def fault_of(fault: configparser.Error, text: str, section: str) -> str:
    """What of a text can't be read, and the line of it."""
    if isinstance(fault, configparser.MissingSectionHeaderError):
        return f"line {fault.lineno}: {fault.line.strip()!r} stands before [{section}]"
    if isinstance(fault, configparser.ParsingError):
        number, _ = fault.errors[0]
        line = text.split("\n")[number - 1].strip()
        return f"line {number}: {line!r} is no NAME = VALUE"
    if isinstance(fault, configparser.DuplicateOptionError):
        return f"line {fault.lineno}: {fault.option} stands there twice"
    if isinstance(fault, configparser.DuplicateSectionError):
        return f"line {fault.lineno}: [{fault.section}] stands there twice"
    return str(fault).splitlines()[0]


def read_section(path: Path, section: str, may_go_on: Sequence[str]) -> dict[str, str]:
    """The words of a file that has this section alone, of which these may go on in lines that are indented: in others such a line would be a setting that
    becomes a part of the one before it. A FileNotFoundError where there is no file, BadSettings where something of it is not known."""
    parser = configparser.ConfigParser(interpolation=None, default_section="")  # (no header has that name)
    try:
        text = path.read_text(encoding="utf-8")
        parser.read_string(text)
    except FileNotFoundError:
        raise
    except OSError as fault:
        raise BadSettings(f"{path}: {fault.strerror}") from None
    except configparser.Error as fault:
        raise BadSettings(f"{path}: {fault_of(fault, text, section)}") from None
    except UnicodeDecodeError:
        raise BadSettings(f"{path}: no text") from None
    if others := [each for each in parser.sections() if each != section]:
        raise BadSettings(f"{path}: [{others[0]}] is not known: the settings stand in [{section}]")
    found = dict(parser[section]) if parser.has_section(section) else {}
    for key, value in found.items():
        if "\n" in value and key not in may_go_on:
            raise BadSettings(f"{path}: {key} has one line, and {value.splitlines()[1]!r} is indented behind it")
    return found


def read_file(path: Path) -> dict[str, str]:
    """The settings of a file; a FileNotFoundError where there is none, BadSettings where it has no form, or something that is not known here."""
    found = read_section(path, SECTION, ["via"])
    if unknown := found.keys() - SETTINGS.keys() - OF_GATEWAYS.keys():
        raise BadSettings(f"{path}: there is no setting {sorted(unknown)[0]}")
    return found


def read_password(path: str) -> str:
    """The password on the first line of a file; BadSettings where it has none, or others may read or write it."""
    try:
        with open(path, encoding="utf-8") as file:
            if os.fstat(file.fileno()).st_mode & 0o006:
                raise BadSettings(f"{path}: others may read or write it")
            word = file.readline().rstrip("\r\n")
    except OSError as fault:
        raise BadSettings(f"{path}: {fault.strerror}") from None
    except UnicodeDecodeError:
        raise BadSettings(f"{path}: no text") from None
    if not word:
        raise BadSettings(f"{path}: no password on its first line")
    return word


class Settings:
    """The settings of one command. BadSettings where one is wanted that isn't there or has no form."""

    def __init__(self, values: Mapping[str, str]):
        self.values = values

    @classmethod
    def gather(cls, options: Mapping[str, str | None], environment: Mapping[str, str]) -> "Settings":
        """From the options, the environment (GRIDFS_TENANT ..) and the file that one of them names."""
        named = options.get("config") or environment.get("GRIDFS_CONFIG")
        values = {key: setting.default for key, setting in SETTINGS.items() if setting.default is not None}
        try:
            values.update(read_file(Path(named) if named else default_file()))
        except FileNotFoundError:
            if named:
                raise BadSettings(f"{named}: no such file") from None
        for key in SETTINGS | OF_GATEWAYS:
            given = options.get(key) or environment.get("GRIDFS_" + key.upper().replace("-", "_"))
            if given:
                values[key] = given
        return cls(values)

    def of_grid(self, map_path: str, grid: str, file: str) -> "Settings":
        """Those of a grid of a fleet: a file beside the map, with the time for an answer, the helpers and the sessions of this command. Commands tell each other the sessions that
        they use in a folder of the grid."""
        values = {key: setting.default for key, setting in SETTINGS.items() if setting.default is not None}
        if "locks" in self.values:
            values["locks"] = str(Path(self.values["locks"]) / grid)
        try:
            values.update(read_file(Path(map_path).parent / file))
        except FileNotFoundError:
            raise BadSettings(f"{Path(map_path).parent / file}: no such file: the settings of {grid}") from None
        kept = ["timeout", "helpers", *(["session"] if self.values.get("session", "all") != "all" else [])]
        return Settings(values | {key: self.values[key] for key in kept if key in self.values})

    def of_session(self, number: int) -> "Settings":
        """Those of a command that may use this session alone."""
        return Settings(self.values | {"session": str(number)})

    def need(self, key: str) -> str:
        if key == "tenant" and not {"tenant", "hosts", "socket", "broker", "via"} & self.values.keys():
            raise BadSettings("no settings: name a file of them by --config or GRIDFS_CONFIG, as ./grid writes FOLDER/NAME.ini (tenant is not set)")
        if key not in self.values:
            raise BadSettings(f"{key} is not set: {SETTINGS[key].meaning}")
        return self.values[key]

    def number(self, key: str) -> int:
        text = self.need(key)
        if not re.fullmatch(r"0|[1-9][0-9]{0,9}", text):
            raise BadSettings(f"{key}: {text!r} is no number")
        return int(text)

    def seconds(self, key: str) -> float:
        try:
            seconds = float(self.need(key))
        except ValueError:
            seconds = 0
        if not 0 < seconds < 1e6:
            raise BadSettings(f"{key}: {self.need(key)!r} is no number of seconds")
        return seconds

    @property
    def tenant(self) -> str:
        name = self.need("tenant")
        if not NAME.match(name):
            raise BadSettings(f"tenant: {name!r} is no name: 1 to 16 letters from a to z, and not the word server")
        return name

    @property
    def grid_name(self) -> str:
        """The grid's name at its broker; none where that has one grid."""
        name = self.values.get("grid-name", "")
        if name and not re.fullmatch(GRID, name):
            raise BadSettings(f"grid-name: {name!r} is no name: a letter a to z, and up to 15 more letters or digits")
        return name

    def pace(self) -> Pace:
        return Pace(timeout=self.seconds("timeout"))

    def shape(self) -> Shape | None:
        """How the nodes are arranged, where it is said."""
        if "grid" not in self.values:
            return None
        found = re.fullmatch(r"([1-8])x([1-8])", self.values["grid"])
        if not found:
            raise BadSettings(f"grid: {self.values['grid']!r} is no ROWSxCOLUMNS from 1x1 to 8x8")
        return Shape(int(found[1]), int(found[2]))

    def carrier(self) -> Carrier:
        """What carries the tenant's lines. CarrierFault where it can't be had."""
        shape = self.shape()
        carrier = self.new_carrier()
        carrier.shape = shape
        return carrier

    def new_carrier(self) -> Carrier:
        tenant, patience = self.tenant, self.seconds("timeout")
        if "via" in self.values:
            return ProcessCarrier(tenant, shlex.split(self.values["via"]))
        if "socket" in self.values:
            return SocketCarrier(tenant, self.values["socket"])
        if self.is_over_links:
            from .links import LinkCarrier

            hosts, authority = self.values.get("hosts", HOSTS), self.values.get("ca-file", AUTHORITY)
            return LinkCarrier(tenant, hosts, authority, self.need("certificate"), self.need("key"), patience)
        broker = self.need("broker")
        try:
            from .broker import MqttCarrier
        except ImportError:
            raise BadSettings("a broker wants the library paho-mqtt (Debian: python3-paho-mqtt)") from None
        password = read_password(self.values["password-file"]) if "password-file" in self.values else None
        return MqttCarrier(tenant, broker, password, self.values.get("ca-file"), patience, self.grid_name)

    def session_numbers(self, sessions: int) -> range:
        """The sessions that may be used, of so many."""
        if self.need("session") == "all":
            return range(1, sessions + 1)
        found = re.fullmatch(r"([1-9][0-9]{0,3})(?:-([1-9][0-9]{0,3}))?", self.need("session"))
        first, last = (int(found[1]), int(found[2] or found[1])) if found else (0, 0)
        if not 1 <= first <= last <= sessions:
            raise BadSettings(f"session: {self.need('session')!r} is not of the sessions 1 to {sessions}")
        return range(first, last + 1)

    def lock(self, number: int) -> IO[str] | None:
        """An open file as long as which no other command on this machine uses the session; None where another one does."""
        return self.locked(number, "lock", fcntl.LOCK_EX | fcntl.LOCK_NB)

    def want(self, number: int) -> IO[str]:
        """An open file as long as which this command waits for the session: who has it for long, as a gateway, lends it then."""
        found = self.locked(number, "wanted", fcntl.LOCK_SH)
        assert found
        return found

    def is_wanted(self, number: int) -> bool:
        """Whether another command on this machine waits for the session."""
        if found := self.locked(number, "wanted", fcntl.LOCK_EX | fcntl.LOCK_NB):
            found.close()
        return found is None

    def grows(self, number: int) -> IO[str] | None:
        """An open file as long as which a gateway of this machine has the session's pages split, since a command waits for `GROWTH`; None where one does."""
        return self.locked(number, "grows", fcntl.LOCK_EX | fcntl.LOCK_NB)

    def is_growing(self, number: int) -> bool:
        """Whether a gateway does so now."""
        if found := self.grows(number):
            found.close()
        return found is None

    def notes(self) -> Path:
        """The folder where commands tell each other something."""
        folder = Path(self.locks)
        folder.mkdir(parents=True, exist_ok=True)
        return folder

    @cached_property
    def locks(self) -> str:
        """Its path: where none is set, one for each grid, which all programs of this user find by where the grid is."""
        return self.values.get("locks") or str(default_locks() / hashlib.sha256(self.where().encode(errors="surrogateescape")).hexdigest()[:16])

    def where(self) -> str:
        """Where the grid is: the same for all that name the same command, socket, file of hosts or broker."""
        if "via" in self.values:
            return f"via {self.values['via']}"
        if "socket" in self.values:
            return f"socket {os.path.realpath(self.values['socket'])}"
        if self.is_over_links:
            return f"hosts {os.path.realpath(self.values.get('hosts', HOSTS))}"
        return f"broker {self.need('broker').lower()} {self.grid_name}"

    @property
    def is_over_links(self) -> bool:
        """Whether links go to the nodes, where it is neither a command nor a socket."""
        return "hosts" in self.values or not {"broker", "password-file"} & self.values.keys()

    def end_path(self, number: int) -> Path:
        """The note of where the session came to its end (ends.py)."""
        return self.notes() / f"{self.tenant}-{number}.end"

    def leftovers_path(self, number: int) -> Path:
        """The note that chunks of the session may be left which no name needs (leftovers.py)."""
        return self.notes() / f"{self.tenant}-{number}.begun"

    def note_silent(self, node: int) -> None:
        """Has the next commands know that a node was silent, or died of what it was asked. Nothing rests on it: where it can't be noted, it isn't."""
        with suppress(OSError):
            (self.notes() / f"{self.tenant}-node{node}.silent").touch(0o644)

    def lately_silent(self) -> set[int]:
        """The nodes that a command found silent in the last minute."""
        found = set()
        with suppress(OSError):
            for path in self.notes().glob(f"{self.tenant}-node*.silent"):
                number = path.stem.rpartition("node")[2]
                if number.isdecimal() and 0 <= time.time() - path.stat().st_mtime < SILENT_FOR:
                    found.add(int(number))
        return found

    def locked(self, number: int, word: str, how: int) -> IO[str] | None:
        # (for reading, so that commands of several users can lock what one of them has made)
        opener: Callable[[str, int], int] = lambda path, _: os.open(path, os.O_RDONLY | os.O_CREAT, 0o644)
        path = os.path.join(self.locks, f"{self.tenant}-{number}.{word}")
        try:
            lock = open(path, opener=opener)
        except FileNotFoundError:
            self.notes()
            lock = open(path, opener=opener)
        try:
            fcntl.flock(lock, how)
            return lock
        except BlockingIOError:
            lock.close()
            return None
