"""The grids of a fleet that a command has: of each a carrier, and sessions that no other command on this machine uses."""

import time
from collections.abc import Collection, Iterator
from contextlib import ExitStack, closing, contextmanager
from typing import IO

from .answers import MOST_SESSIONS, PlanTold
from .asking import LAST_CALL, SILENCE, ask_all, ask_others, ask_plan
from .carriers import Carrier
from .errors import BadSettings, CarrierFault, ClientError, NoSuchName, SessionTaken, Unanswered
from .fleet import MAP_NAME, FleetFiles, ground_of, in_threads
from .fleet_map import FleetMap, parse_map
from .grid import Nodes, listed
from .layout import Layout, layout_of
from .local import complain
from .names import NamedFiles
from .opening import AGAIN, OpenSessions, turn_of
from .progress import Progress
from .sessions import Session
from .settings import GROWTH, Settings
from .ways import Ground, slice_of

SEEN = 0.5  # seconds until a gateway has seen that somebody waits


class OpenGrid:
    """One grid, by its settings."""

    def __init__(self, settings: Settings, name: str):
        self.settings = settings
        self.carrier = settings.carrier()
        try:
            begun = self.carrier.now()
            self.told = ask_plan(self.carrier, settings.pace())
            ask_others(self.carrier, begun, settings.lately_silent())
            self.layout = layout_of(self.told)
        except BaseException:
            self.carrier.close()
            raise
        self.sessions = OpenSessions(settings, self.told, self.carrier, name)

    def files(self, progress: Progress | None, ground: Ground, sessions: OpenSessions | None = None) -> NamedFiles:
        """The files by these sessions, or by those that the command has."""
        sessions = sessions or self.sessions
        files = NamedFiles(sessions.first(), self.layout, progress, sessions.helpers, others=sessions.others, ground=ground)
        files.may_grow = self.may_grow
        files.leftovers = sessions.leftovers(files.session)
        return files

    def may_grow(self) -> bool:
        """Whether all nodes that answer have the pages that are known here."""
        return not of_before(self.carrier, self.told, LAST_CALL)

    def sessions_for(self, name: str) -> OpenSessions:
        """Sessions of its own, that on which the name depends first."""
        return OpenSessions(self.settings, self.carrier.told or self.told, self.carrier, name)

    def nodes(self) -> Nodes | None:
        """The nodes, as they answer now; None where none does."""
        return ask_all(self.carrier, min(SILENCE, self.settings.seconds("timeout")), self.settings.shape())

    @contextmanager
    def session(self, numbers: Collection[int], ground: Ground) -> Iterator[NamedFiles]:
        """The files of one of these sessions, or of any, as long as they are used. SessionTaken where none comes free in the time for an answer, or this
        machine may use none of them."""
        may_use = self.settings.session_numbers(self.told.sessions)
        wanted = [number for number in numbers or may_use if number in may_use]
        if not wanted:
            raise SessionTaken(f"the settings name other sessions than {listed(numbers)} of {self.settings.tenant}")
        number, lock = self.lock(wanted)
        try:
            files = NamedFiles(Session(self.carrier, number, self.told.home_of(number), self.settings.pace()), self.layout, ground=ground)
            files.may_grow = self.may_grow
            yield files
        finally:
            lock.close()

    def lock(self, numbers: list[int]) -> tuple[int, IO[str]]:
        until = time.monotonic() + self.settings.pace().timeout
        waits = ExitStack()
        try:
            while True:
                for number in numbers:
                    if lock := self.settings.lock(number):
                        return number, lock
                if time.monotonic() > until:
                    raise SessionTaken(f"sessions {', '.join(map(str, numbers))} of {self.settings.tenant} are used by other commands")
                waits.close()
                waits.enter_context(self.settings.want(numbers[0]))
                time.sleep(AGAIN)
        finally:
            waits.close()

    def close(self) -> None:
        self.sessions.close()
        self.carrier.close()


def of_before(carrier: Carrier, plan: PlanTold, seconds: float) -> list[int]:
    """The nodes that answer, and have not told the plan that others did. (One that is silent so long has to begin with the last one.)"""
    nodes = ask_all(carrier, seconds, None)
    told = carrier.volumes
    standing = [] if nodes is None else [node for place in range(nodes.told.nodes) if (node := nodes.told.node_at(place)) not in nodes.silent]
    return [node for node in standing if told.get(node, 0) < max([len(plan.volumes), *told.values()])]


def one_by_one(
    settings: Settings, told: PlanTold, carrier: Carrier, progress: Progress | None, ground: Ground | None = None, grows: bool = False
) -> Iterator[tuple[int, NamedFiles | None]]:
    """The files by one session after another, so that others can be used meanwhile; None for one whose home is silent, or that others keep. For who has pages split (`grows`) a gateway has
    those of its sessions split before, by itself."""
    with ExitStack() as waits:
        if grows and len(layout_of(told).levels) > 1:
            waits.enter_context(settings.want(GROWTH))
            time.sleep(SEEN)
        for number in settings.session_numbers(told.sessions):
            while grows and settings.is_growing(number):
                time.sleep(AGAIN)
            with closing(OpenSessions(settings.of_session(number), carrier.told or told, carrier, begun=carrier.now())) as sessions:
                try:
                    files = NamedFiles(sessions.first(), layout_of(told), progress, ground=ground)
                except (SessionTaken, Unanswered):
                    yield number, None
                    continue
                yield number, files
                files.close()


@contextmanager
def faults_of(grid: str) -> Iterator[None]:
    """Has a fault name the grid."""
    try:
        yield
    except ClientError as fault:
        fault.args = (f"{grid}: {fault}",)
        raise


class OpenGrids:
    """The grids of a map, each opened when it is first asked for."""

    def __init__(self, fleet_map: FleetMap, settings: Settings, name: str = "", progress: Progress | None = None):
        self.map, self.settings, self.name, self.progress = fleet_map, settings, name, progress
        self.open: dict[str, OpenGrid] = {}

    def grid(self, grid: str) -> OpenGrid:
        if grid not in self.open:
            with faults_of(grid):
                self.open[grid] = OpenGrid(self.settings.of_grid(self.map.path, grid, self.map.grids[grid]), self.name)
        return self.open[grid]

    def one_by_one(self, grows: bool = False) -> Iterator[tuple[str, NamedFiles | None]]:
        """The files of one grid after another, by one session after another, as `one_by_one` has them."""
        for name in self.map.grids:
            grid = self.grid(name)
            with faults_of(name):
                for number, files in one_by_one(grid.settings, grid.told, grid.carrier, self.progress, ground_of(self.map, name), grows):
                    yield f"{number} of {name}", files

    def layout(self, grid: str) -> Layout:
        return self.grid(grid).layout

    @contextmanager
    def session(self, grid: str, numbers: Collection[int], ground: Ground) -> Iterator[NamedFiles]:
        with self.grid(grid).session(numbers, ground) as files:
            yield files

    def files(self) -> FleetFiles:
        return FleetFiles(self.map, self.files_of, in_threads)

    @contextmanager
    def files_for(self, name: str) -> Iterator[FleetFiles]:
        """The files by sessions of their own, those on which the name depends if they are free; others may have them again afterwards."""
        with ExitStack() as taken:
            all_sessions = list[OpenSessions]()

            def open_files(grid: str, ground: Ground) -> NamedFiles:
                opened = self.grid(grid)
                with faults_of(grid):
                    sessions = taken.enter_context(closing(opened.sessions_for(name)))
                    all_sessions.append(sessions)
                    return opened.files(self.progress, ground, sessions)

            files = FleetFiles(self.map, open_files, in_threads)
            try:
                yield files
            except BaseException as fault:
                for sessions in all_sessions:
                    if isinstance(fault, Unanswered) and fault.home is not None and fault.home in map(sessions.told.home_of, sessions.locks):
                        sessions.leave(fault.home)
                files.let_go()
                raise
            files.close()

    def turn_of(self, name: str) -> int:
        """The same number for names that begin at one grid, with one session there."""
        grid = self.map.stop(slice_of(name)).grid
        sessions = self.grid(grid).sessions.numbers
        return list(self.map.grids).index(grid) * MOST_SESSIONS + turn_of(name, len(sessions))

    def files_of(self, grid: str, ground: Ground) -> NamedFiles:
        opened = self.grid(grid)
        with faults_of(grid):
            return opened.files(self.progress, ground)

    def with_latest_map(self) -> FleetFiles:
        """The files by the fleet's own copy of the map, where that is a later one. Where the grid that has it is silent, this one is as right; so it is where
        what stands there is no map of these grids, which is told: whoever may put names could have put it."""
        files = self.files()
        try:
            latest = parse_map(files.get(MAP_NAME)[0].decode("ascii"), MAP_NAME).by_settings_of(self.map)
        except (NoSuchName, Unanswered, CarrierFault):
            return files
        except (BadSettings, UnicodeDecodeError) as fault:
            complain(f"the fleet's copy of the map is passed over: {fault if isinstance(fault, BadSettings) else f'{MAP_NAME}: no map of a fleet'}")
            return files
        if latest.age <= self.map.age:
            return files
        files.close()
        self.leave_sessions()
        self.map = latest
        return self.files()

    def take_latest_map(self) -> None:
        """Goes by the fleet's own copy of the map, where that is a later one, and has no session afterwards."""
        self.with_latest_map().close()
        self.leave_sessions()

    def leave_sessions(self) -> None:
        for grid in self.open.values():
            grid.sessions.close()

    def stop(self, why: str) -> None:
        for grid in self.open.values():
            grid.carrier.stop(why)

    def close(self) -> None:
        for grid in self.open.values():
            grid.close()


def publish(fleet_map: FleetMap, settings: Settings) -> ClientError | None:
    """Puts the map into the fleet, for clients that begin; why that couldn't be: an older one there is as right."""
    try:
        with closing(OpenGrids(fleet_map, settings, MAP_NAME)) as grids:
            files = grids.files()
            files.put(MAP_NAME, fleet_map.text().encode())
            files.close()
        return None
    except ClientError as fault:
        return fault
