"""The pools that a statement is over, by their numbers."""

from typing import NamedTuple

from society_office.closings.orders import LAST_POOL


class Span(NamedTuple):
    """The pools from one number on, up to another one."""

    since: int = 1
    until: int = LAST_POOL

    @property
    def is_whole(self) -> bool:
        """Whether these are all pools."""
        return self.since <= 1 and self.until >= LAST_POOL

    @property
    def words(self) -> str:
        """Which pools these are; the empty text of all."""
        if self.is_whole:
            return ""
        if self.since == self.until:
            return f"pool {self.since}"
        if self.until >= LAST_POOL:
            return f"the pools from {self.since} on"
        return f"the pools up to {self.until}" if self.since <= 1 else f"the pools {self.since} to {self.until}"

    def has(self, pool: int) -> bool:
        """Whether a pool is one of these."""
        return self.since <= pool <= self.until
