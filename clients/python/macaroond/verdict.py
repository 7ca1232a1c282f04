"""What a verify comes to."""
from __future__ import annotations

from typing import Optional

from .errors import REASONS, BadToken, refusal
from .text import Text, bytes_of, shown, text_of
from .tokens import inspect
from .wire import Owner, owner

GRANTED, GRANTED_TO, UNSATISFIED, REVOKED = 0, 3, 24, 29
# The refusals of a verify that speak of the token; the others are raised.
OF_TOKEN = frozenset((19, 20, 21, 22, 23, UNSATISFIED, 26, REVOKED))


class Verdict:
    """Whether a token is granted: true exactly where it is.

    `code` is 0 where the token is granted, else the number of the refusal; `caveat` is the place of
    the first caveat that isn't satisfied, counted from 0, where that is the refusal (24).
    """

    __slots__ = ("code", "caveat", "_token", "_owner")

    def __init__(self, code: int, caveat: Optional[int], token: Text, owner: Optional[Owner] = None) -> None:
        self.code = code
        self.caveat = caveat
        self._token = token
        self._owner = owner

    def __bool__(self) -> bool:
        return self.code == GRANTED

    def __repr__(self) -> str:
        return f"<Verdict {self.reason}>"

    @property
    def identifier(self) -> Optional[str]:
        """The identifier of a token that is granted; of any other None, since nobody vouches for it."""
        if self._owner is not None:
            return text_of(self._owner.identifier)
        return inspect(self._token).identifier if self else None

    @property
    def unsigned_location(self) -> Optional[str]:
        """The location of a token that is granted: a hint of where it is from, which whoever holds the
        token can change, so that nothing may rest on it; of any other token None."""
        if self._owner is not None:
            return text_of(self._owner.location)
        return inspect(self._token).location if self else None

    @property
    def is_revoked(self) -> bool:
        """Whether the token was taken back, or the one that it was narrowed from: it will never be granted again."""
        return self.code == REVOKED

    @property
    def reason(self) -> str:
        """The verdict in words, in one line of printable ASCII: in the text of a caveat each other byte
        and the backslash stands as `\\x` and two digits."""
        if self:
            return "granted"
        if self.caveat is None:
            return REASONS[self.code]
        return f"caveat {self.caveat} is not satisfied: {self._unsatisfied()}"

    def _unsatisfied(self) -> str:
        try:
            return shown(bytes_of(inspect(self._token).caveats[self.caveat or 0]))
        except (BadToken, IndexError):
            return "(the token can't be read here)"


def verdict(reply: bytes, token: Text) -> Verdict:
    """The verdict that a verify's reply tells, or the error that it tells."""
    code = reply[0]
    if code == GRANTED_TO:
        return Verdict(GRANTED, None, token, owner(reply[1:]))
    if code == GRANTED or code in OF_TOKEN:
        return Verdict(code, int.from_bytes(reply[1:], "big") if code == UNSATISFIED else None, token)
    raise refusal(code)
