"""A body as a session reads it, of bytes that are there."""

import hashlib
import io


class Body(io.BytesIO):
    @property
    def told_size(self):
        return len(self.getvalue())

    def rewind(self):
        self.seek(0)

    def checksum(self, algorithm):
        return None

    def digest(self):
        return hashlib.md5(self.getvalue()).hexdigest()
