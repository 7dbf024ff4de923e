"""A back-to-back user agent: for each incoming call it places one to the next hop. It passes on
what either side sends: answers, re-INVITEs, INFOs, BYEs and CANCELs, with their bodies and headers.

    PYTHONPATH=bindings python3 examples/b2bua.py LIBRARY LOCAL NEXT

LOCAL and NEXT are an address and a port, as in 192.0.2.1:5060. One agent handles both calls. It
doesn't pass on headers that concern one side alone: routes, Contacts, and those that identify a
message. Nor does it pass on the caller's name, since the From of its own INVITE is a URI. It
doesn't support 100rel."""

import asyncio
import sys
from typing import Any, Coroutine, List, Optional, Set, Tuple

from sip_ua import Address, Error, Message
from sip_ua_calls import (
    Answered,
    Call,
    Ended,
    Event,
    IncomingCall,
    IncomingRequest,
    OutgoingCall,
    Progress,
    UserAgent,
    address_of,
    open_user_agent,
    uri_of,
)

CONTACT = {"contact", "m"}
# Headers that aren't passed on.
OF_ONE_SIDE = CONTACT | set(
    "via v from f to t call-id i cseq max-forwards content-length l rseq rack record-route route "
    "require supported k".split()
)
REDIRECTION = range(300, 400)


def headers_to_pass(message: Optional[Message], status: int = 0) -> List[Tuple[str, str]]:
    """The headers of a message that are passed on, of a redirection also its Contacts."""
    if message is None:
        return []
    left_out = OF_ONE_SIDE - CONTACT if status in REDIRECTION else OF_ONE_SIDE
    return [(name, value) for name, value in message.headers if name.lower() not in left_out]


class B2bua:
    def __init__(self, agent: UserAgent, next_hop: Address):
        self.agent, self.next_hop = agent, next_hop
        self.tasks: "Set[asyncio.Task[None]]" = set()

    def spawn(self, work: Coroutine[Any, Any, None]) -> None:
        """Runs a coroutine beside the others. A task is kept until it is done."""
        task = asyncio.ensure_future(work)
        self.tasks.add(task)
        task.add_done_callback(self.tasks.discard)

    async def run(self) -> None:
        async for call in self.agent.incoming():
            try:
                await self.connect(call)
            except Error as error:
                print("not passed on:", error, flush=True)
                call.reject(400, "Bad Request")

    async def connect(self, caller: IncomingCall) -> None:
        """Calls the next hop, and joins the two calls."""
        invite = caller.invite
        if "100rel" in ",".join(invite.values("Require")):
            caller.reject(420, "Bad Extension", headers=[("Unsupported", "100rel")])
            return
        ip, port = self.next_hop
        user, at, _ = (invite.start.uri or "").rpartition("@")
        uri = f"{user}@{ip}:{port}" if at else f"sip:{ip}:{port}"
        own = uri_of(invite.value("From"))
        said = (invite.body, headers_to_pass(invite))
        callee = await self.agent.call(uri, *said, address=self.next_hop, from_uri=own)
        self.spawn(self.follow(caller, callee))
        self.spawn(self.follow(callee, caller))

    async def follow(self, one: Call, other: Call) -> None:
        """Passes on what happens in one call to the other one, until it ends."""
        async for event in one:
            try:
                self.pass_on(event, other)
            except Error as error:
                print("not passed on:", error, flush=True)

    def pass_on(self, event: Event, other: Call) -> None:
        if isinstance(event, IncomingRequest):
            self.spawn(self.ask(event, other))
        elif isinstance(event, Ended):
            self.end(event, other)
        elif isinstance(event, Progress) and isinstance(other, IncomingCall):
            headers = headers_to_pass(event.message)
            other.respond(event.status, event.reason, event.message.body, headers)
        elif isinstance(event, Answered) and isinstance(other, IncomingCall):
            other.answer(event.message.body, headers_to_pass(event.message))
        elif isinstance(event, Answered) and isinstance(other, OutgoingCall):
            other.acknowledge(event.message.body, headers_to_pass(event.message))

    def end(self, event: Ended, other: Call) -> None:
        """One call has ended, so the other one ends too."""
        response = event.response
        if response is not None and isinstance(other, IncomingCall) and not other.is_up:
            body = response.message.body if response.message is not None else b""
            headers = headers_to_pass(response.message, response.status)
            other.reject(response.status, response.reason, body, headers)
        elif event.message is not None and event.message.method == "BYE":
            other.hang_up(event.message.body, headers_to_pass(event.message))
        else:
            other.hang_up()

    async def ask(self, request: IncomingRequest, other: Call) -> None:
        """Passes on a request within a call, and its response."""
        if not other.is_up:
            request.respond(491, "Request Pending")
            return
        message = request.message
        try:
            response = await other.request(request.method, message.body, headers_to_pass(message))
            body = response.message.body if response.message is not None else b""
            request.respond(
                response.status, response.reason, body, headers_to_pass(response.message)
            )
        except Error as error:
            print("not passed on:", error, flush=True)
            request.respond(400, "Bad Request")
            return
        if request.method == "INVITE":
            ack = await request.acknowledged()
            other.acknowledge(ack.body if ack is not None else b"", headers_to_pass(ack))


async def main(library: str, local: str, next_hop: str) -> None:
    agent = await open_user_agent(library, await address_of(f"sip:{local}"))
    async with agent:
        print("ready", flush=True)
        await B2bua(agent, await address_of(f"sip:{next_hop}")).run()


if __name__ == "__main__":
    asyncio.run(main(*sys.argv[1:4]))
