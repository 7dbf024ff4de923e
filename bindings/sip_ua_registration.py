"""A registration as an object, over asyncio (RFC 3261, section 10).

    async with await open_user_agent(..) as agent:
        async with await register(agent, "sip:alice@example.com", "secret") as registration:
            ..

It answers challenges by Digest, asks for longer after a 423, refreshes the binding by what the
registrar granted, tries again if a refresh fails, and unregisters at the end of the `async with`.
To end all: hang up the calls, await their `ended`, leave the registration, then the agent.
"""

import asyncio
import random
import re
from typing import AsyncIterator, Iterator, List, Optional

from sip_ua import Address, Error, Headers, Message, SipUaError
from sip_ua_calls import CLOSE_S, FinalResponse, Stream, UserAgent, uri_of
from sip_ua_digest import Authenticator
from sip_ua_headers import number_of

__all__ = ["Registration", "RegistrationFailed", "register"]

# What is asked for, in s.
EXPIRES_S = 3600
# A binding for longer than LONG_S is refreshed EARLY_S before its end, another one after half of
# its time (3GPP TS 24.229, section 5.1.1.4.1).
LONG_S = 1200
EARLY_S = 600
SHORTEST_PAUSE_S = 1.0
# After a failure, the first of several: so long until the next REGISTER, twice as long after each
# further one (RFC 5626, section 4.5).
RETRY_S = 30
MOST_RETRY_S = 1800
# How often a REGISTER asks for longer.
MOST_TOO_BRIEF = 2
INTERVAL_TOO_BRIEF = 423

_QUOTED = r'"(?:[^"\\]|\\.)*"'
# A Contact of a list; its parts that have no parameter, or its parameter.
_CONTACT = re.compile(rf'(?:{_QUOTED}|<[^>]*>|[^,"<])+')
_EXPIRES = re.compile(rf'{_QUOTED}|<[^>]*>|;\s*expires\s*=\s*"?(\d{{1,10}})', re.IGNORECASE)


class RegistrationFailed(SipUaError):
    """The registrar didn't register the user, for the reason in `response`."""

    def __init__(self, response: FinalResponse):
        self.response = response
        super().__init__(f"{response.status} {response.reason}")


class Registration:
    """The binding of a user agent's Contact at a registrar. `register` makes it, and `unregister`
    removes it. `response` is the registrar's last one, a FinalResponse; `contacts` are the bindings
    that it then held, a list of values of Contact; and `expires_s`, an int, is the time in s that
    it granted, 0 while nothing is registered. `async for` gives each final response from then on,
    and ends with `unregister`. Where the registrar is silent, `response` stays what it was."""

    def __init__(
        self,
        agent: UserAgent,
        uri: str,
        password: str,
        address: Optional[Address] = None,
        username: Optional[str] = None,
        contact: Optional[str] = None,
        expires_s: int = EXPIRES_S,
    ):
        user, _, domain = uri.partition(":")[2].rpartition("@")
        ip, port = agent.endpoint.local
        self.uri = uri
        self.contact = contact or f"sip:{user}@{ip}:{port}"
        self.expires_s = 0
        self.contacts: List[str] = []
        self.response = FinalResponse(0, "")
        self._agent = agent
        self._registrar = f"sip:{domain}"
        self._address = address
        self._authenticator = Authenticator(user if username is None else username, password)
        self._asked_s = expires_s
        self._failures = 0
        # A REGISTER is sent once the one before it has its final response (section 10.2).
        self._lock = asyncio.Lock()
        self._keeper: "Optional[asyncio.Task[None]]" = None
        self._responses: Stream[FinalResponse] = Stream(lambda _: None)

    @property
    def is_registered(self) -> bool:
        """Whether the registrar holds the registration."""
        return self.expires_s > 0

    def __aiter__(self) -> AsyncIterator[FinalResponse]:
        return self._responses.read()

    async def __aenter__(self) -> "Registration":
        return self

    async def __aexit__(self, *_: object) -> None:
        """Unregisters, unless that was done, and waits at most 4 s for the registrar. Calls go on:
        to end them before, hang them up and await `ended`."""
        if self._keeper is None:
            return
        try:
            await asyncio.wait_for(self.unregister(), CLOSE_S)
        except asyncio.TimeoutError:
            pass

    async def start(self) -> None:
        """Registers, and keeps the binding from then on. Raises RegistrationFailed if this first
        REGISTER fails."""
        if not (await self._register()).is_success:
            raise RegistrationFailed(self.response)
        self._keeper = asyncio.ensure_future(self._keep())

    async def unregister(self, all_bindings: bool = False) -> FinalResponse:
        """Removes the binding, or all bindings of the user, and returns the final response."""
        contact = "*" if all_bindings else f"<{self.contact}>"
        async with self._lock:
            if self._keeper is not None:
                self._keeper.cancel()
                self._keeper = None
            response = await self._ask([("Contact", contact), ("Expires", "0")])
            self._take(response, 0)
        self._responses.end()
        return response

    async def _keep(self) -> None:
        while not self._agent.endpoint.is_closed:
            await asyncio.sleep(self._pause_s())
            async with self._lock:
                await self._register()

    def _pause_s(self) -> float:
        """How long until the next REGISTER, in s."""
        if self._failures == 0:
            granted = self.expires_s
            pause = granted - EARLY_S if granted > LONG_S else granted / 2
            return max(pause, SHORTEST_PAUSE_S)
        longest = min(MOST_RETRY_S, RETRY_S * 2 ** (self._failures - 1))
        message = self.response.message
        wanted = number_of(message.value("Retry-After")) if message is not None else 0
        return max(wanted, random.uniform(longest / 2, longest))

    async def _register(self) -> FinalResponse:
        """Registers or refreshes. After a 423 it asks for the shortest time that is allowed."""
        for _ in range(1 + MOST_TOO_BRIEF):
            asked_s = self._asked_s
            headers = [("Contact", f"<{self.contact}>"), ("Expires", str(asked_s))]
            response = await self._ask(headers)
            shortest = number_of(response.message.value("Min-Expires")) if response.message else 0
            if response.status != INTERVAL_TOO_BRIEF or shortest <= asked_s:
                break
            self._asked_s = shortest
        self._take(response, asked_s)
        return response

    async def _ask(self, headers: Headers) -> FinalResponse:
        """The final response to a REGISTER: 503 if it can't be sent, as without DNS."""
        try:
            return await self._agent.request(
                "REGISTER",
                self._registrar,
                headers=headers,
                address=self._address,
                from_uri=self.uri,
                to_uri=self.uri,
                authenticator=self._authenticator,
            )
        except (OSError, Error) as error:
            return FinalResponse(503, str(error))

    def _take(self, response: FinalResponse, asked_s: int) -> None:
        self.response = response
        if response.is_success and response.message is not None:
            self._failures = 0
            self.contacts = list(contacts_of(response.message))
            granted = granted_s(response.message, self.contact, asked_s)
            self.expires_s = granted if asked_s > 0 else 0
        else:
            self._failures += 1
            self.expires_s = 0
        self._responses.put(response)


async def register(
    agent: UserAgent,
    uri: str,
    password: str,
    address: Optional[Address] = None,
    username: Optional[str] = None,
    contact: Optional[str] = None,
    expires_s: int = EXPIRES_S,
) -> Registration:
    """Registers the user of a URI such as sip:alice@example.com, and returns the registration once
    it stands. Raises RegistrationFailed otherwise. The registrar is at the address, else at the
    agent's proxy or in the URI's domain. The username is that of the URI, unless given; the
    contact, a URI without brackets, is that user at the agent's address. `expires_s` is what to ask
    for, in s. If this is cancelled, the request is given up."""
    registration = Registration(agent, uri, password, address, username, contact, expires_s)
    await registration.start()
    return registration


def contacts_of(message: Message) -> Iterator[str]:
    """The Contacts of a message, one by one."""
    for value in message.values("Contact"):
        yield from (piece.strip() for piece in _CONTACT.findall(value))


def granted_s(message: Message, contact: str, asked_s: int) -> int:
    """The time in s that a 200 grants to a contact: the parameter of that Contact, else Expires,
    else what was asked for (RFC 3261, section 10.2.4)."""
    for value in contacts_of(message):
        expires = next(filter(None, _EXPIRES.findall(value)), None)
        if expires is not None and is_same(uri_of(value), contact):
            return int(expires)
    expires_header = message.value("Expires")
    return number_of(expires_header) if expires_header else asked_s


def is_same(one: str, other: str) -> bool:
    """Whether two URIs are the same but for their parameters."""
    return one.partition(";")[0].lower() == other.partition(";")[0].lower()
