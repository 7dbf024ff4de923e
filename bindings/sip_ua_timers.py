"""Session timers (RFC 4028): a call whose peer is gone ends, though nothing else would tell it. One
side refreshes the session by a re-INVITE at half of its time; without that the other one hangs up.

    agent = await open_user_agent(.., session_timer=Timer(expires_s=600))

A refresh has the last SDP of this side; one of the peer with its last SDP is answered by that, and
isn't told. Nothing says `Require: timer`, and a request of a peer that does gets 420.
"""

import asyncio
from dataclasses import dataclass
from typing import Callable, List, NamedTuple, Optional, Tuple

from sip_ua import BadValueError, Headers, Message
from sip_ua_headers import number_of, supported_by

__all__ = ["Session", "Timer"]

# The option tag.
TAG = "timer"
# The shortest time of a session that may be asked for, in s (section 4).
LEAST_S = 90
# How long before its end the session of a silent peer ends, at most, in s (section 10).
MOST_EARLY_S = 32.0
# How often a request asks for a longer time.
MOST_TOO_SMALL = 3
INTERVAL_TOO_SMALL = (422, "Session Interval Too Small")


@dataclass(frozen=True)
class Timer:
    """How long a session lasts without a refresh, in s, and the shortest time that a peer may ask
    for, 90 s or longer."""

    expires_s: int = 1800
    min_se_s: int = LEAST_S

    def __post_init__(self) -> None:
        if not LEAST_S <= self.min_se_s <= self.expires_s:
            raise BadValueError(f"not {LEAST_S} <= min_se_s <= expires_s: {self}")


class SessionExpires(NamedTuple):
    """A time in s, and who refreshes, `uac` or `uas`; empty if that isn't said."""

    seconds: int
    refresher: str


def session_expires_of(message: Message) -> Optional[SessionExpires]:
    """What the header Session-Expires of a message says."""
    value = message.value("Session-Expires")
    seconds = number_of(value)
    pairs = [parameter.partition("=") for parameter in value.split(";")[1:]]
    said = [who.strip().lower() for name, _, who in pairs if name.strip().lower() == "refresher"]
    return SessionExpires(seconds, said[0] if said else "") if seconds > 0 else None


def min_se_of(message: Message) -> int:
    """What the header Min-SE of a message says, in s, at least the shortest time that may be."""
    return max(number_of(message.value("Min-SE")), LEAST_S)


class Session:
    """The timer of a call. `refresh` is called when this side has to refresh, and `expire` when the
    session is over. `interval_s` is what the two agreed on, 0 if they have no timer, and `number`
    counts the refreshes, first of all the beginning."""

    def __init__(self, timer: Timer, refresh: Callable[[], None], expire: Callable[[], None]):
        self.interval_s = 0
        self.number = 0
        self._timer = timer
        self._refresh, self._expire = refresh, expire
        self._is_refresher = False
        # What the next request asks for.
        self._asked_s, self._min_se_s = timer.expires_s, timer.min_se_s
        self._too_small = 0
        self._handles: List[asyncio.TimerHandle] = []

    def stop(self) -> None:
        """Ends the timer."""
        self.interval_s = 0
        for handle in self._handles:
            handle.cancel()
        self._handles = []

    # -- a request of ours

    def asking(self) -> List[Tuple[str, str]]:
        """The headers of an INVITE or a re-INVITE."""
        role = ";refresher=" + ("uac" if self._is_refresher else "uas") if self.interval_s else ""
        min_se = [("Min-SE", str(self._min_se_s))] if self._min_se_s > LEAST_S else []
        return [("Supported", TAG), ("Session-Expires", f"{self._asked_s}{role}"), *min_se]

    def takes_too_small(self, status: int, message: Optional[Message]) -> bool:
        """Whether a response is a 422 after which the request is sent again, for longer."""
        if status != INTERVAL_TOO_SMALL[0] or message is None or self._too_small >= MOST_TOO_SMALL:
            return False
        self._too_small += 1
        self._min_se_s = max(self._min_se_s, min_se_of(message))
        is_more = self._min_se_s > self._asked_s
        self._asked_s = max(self._asked_s, self._min_se_s)
        return is_more

    def take_answer(self, message: Message) -> None:
        """Takes the 2xx to an INVITE or a re-INVITE: without a time in it there is no timer."""
        said = session_expires_of(message)
        self.stop()
        if said is not None:
            self._begin(said.seconds, said.refresher != "uas")

    # -- a request of the peer

    def refusal(self, request: Message) -> Headers:
        """The header of the 422 to a request that asks for less than may be; none if it doesn't, or
        its sender doesn't know timers."""
        said = session_expires_of(request)
        if said is None or TAG not in supported_by(request.headers):
            return []
        least_s = self._timer.min_se_s
        return [("Min-SE", str(least_s))] if said.seconds < least_s else []

    def answer(self, request: Message) -> List[Tuple[str, str]]:
        """The header of a 2xx to an INVITE, a re-INVITE or an UPDATE, by which the timer begins
        anew. A peer that doesn't know timers has none, unless a proxy asks for one."""
        said, knows = session_expires_of(request), TAG in supported_by(request.headers)
        self.stop()
        if said is None and not knows:
            return []
        most_s = max(self._timer.expires_s, min_se_of(request))
        seconds = most_s if said is None else min(said.seconds, most_s)
        is_peers = said is not None and knows and said.refresher == "uac"
        self._begin(seconds, not is_peers)
        return [("Session-Expires", f"{seconds};refresher={'uac' if is_peers else 'uas'}")]

    def _begin(self, seconds: int, is_refresher: bool) -> None:
        """The session lasts so long from now on, but never so short that refreshes are a burden.
        Who doesn't refresh it ends it a bit before."""
        loop = asyncio.get_running_loop()
        seconds = max(seconds, LEAST_S)
        self.number += 1
        self.interval_s = self._asked_s = seconds
        self._is_refresher = is_refresher
        early_s = 0.0 if is_refresher else min(MOST_EARLY_S, seconds / 3)
        self._handles = [loop.call_later(seconds - early_s, self._expire)]
        if is_refresher:
            self._handles.append(loop.call_later(seconds / 2, self._refresh))
