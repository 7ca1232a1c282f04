"""What may go wrong, told in sentences that name the thing."""
from __future__ import annotations


class FleetError(Exception):
    """What keeps a command from its work."""


class StoreAway(FleetError):
    """No endpoint of the store answers as it must: it is away, slow, full, or refuses the user."""


class NotTaken(FleetError):
    """What the store holds isn't what it must be, so it is left where it is."""


class Lacking(NotTaken):
    """The store lacks something that a head names: as where another head has just come."""


class ToolFailed(FleetError):
    """`openssl` or `macaroond` refuses what it was given."""


class ToolAway(FleetError):
    """`openssl` or `macaroond` can't be run, or isn't done in time: what it was given is neither good nor bad by that."""
