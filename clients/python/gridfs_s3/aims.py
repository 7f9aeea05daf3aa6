"""Where a change of an object is to stand: as the state of its bucket's versions is when the change is committed, however early it was asked for. What is chosen
before the content comes may be another place than the right one once it is there."""

from gridfs_client.buckets import Held

from .gateway import Gateway
from .places import Object, Values, name_of, version_name
from .store import Store
from .versions import HEADER, Restated, Target, target_of


class Aim:
    """The place of one change. Its methods but the first are for the thread by which a session works."""

    def __init__(self, gateway: Gateway, bucket: str, key: str, state: str, version: str = ""):
        self.gateway, self.bucket, self.key, self.version = gateway, bucket, key, version
        self.name = name_of(bucket, key)  # (the page of this one has all versions)
        self.state, self.target = state, target_of(bucket, key, state, version)

    @property
    def version_name(self) -> str:
        """Where it is a version by the ID that was given."""
        return version_name(self.bucket, self.version, self.name)

    def told_of(self, held: Held) -> dict[str, str]:
        """The headers that tell of the version that stands there."""
        return {HEADER: Object(self.key, held).version} if self.state else {}

    def at(self, store: Store) -> Target:
        """The place, as it is right now."""
        if (state := self.gateway.state_now(self.bucket, store)) != self.state:
            self.state, self.target = state, target_of(self.bucket, self.key, state, self.version)
        return self.target

    def expect(self, store: Store) -> None:
        """Restated where it is another one than was told last."""
        if self.gateway.state_now(self.bucket, store) != self.state:
            raise Restated

    def values(self, store: Store) -> Values:
        """What is kept beside a content for its place. Restated."""
        self.expect(store)
        return self.target.values
