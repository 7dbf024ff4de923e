"""A softphone on a terminal, without sound: it registers with a password, calls, shows who calls,
answers, holds, sends and shows tones (DTMF by INFO), hands a call over, and hangs up.

    PYTHONPATH=bindings python3 examples/phone.py LIBRARY LOCAL NAME@DOMAIN [REGISTRAR PASSWORD]

LOCAL and REGISTRAR are an address and a port, as in 192.0.2.1:5060. Without a registrar, a call
goes directly to the address in its URI. A line of the terminal is a command:

    call URI    answer    busy    hold    resume    tone DIGIT    transfer URI    hangup    quit"""

import asyncio
import re
import sys
from typing import Any, Coroutine, Optional, Set

from sip_ua import BadValueError, Error
from sip_ua_calls import (
    ALLOW,
    Answered,
    Call,
    Event,
    IncomingCall,
    IncomingRequest,
    Progress,
    UserAgent,
    address_of,
    open_user_agent,
)
from sip_ua_registration import Registration, RegistrationFailed

# The direction of media that answers the one in an offer (RFC 3264, section 6.1).
ANSWERS = {"sendonly": "recvonly", "recvonly": "sendonly", "inactive": "inactive"}
TONE = ("Content-Type", "application/dtmf-relay")


def say(*words: object) -> None:
    print(*words, flush=True)


def direction_of(sdp: bytes) -> str:
    found = re.search(rb"^a=(sendrecv|sendonly|recvonly|inactive)\r?$", sdp, re.M)
    return found[1].decode() if found else "sendrecv"


class Phone:
    """One call at a time. A command is a method `do_..`."""

    def __init__(self, agent: UserAgent):
        self.agent = agent
        self.call: Optional[Call] = None
        self.tasks: "Set[asyncio.Task[None]]" = set()
        self.sdp_version = 0

    def spawn(self, work: Coroutine[Any, Any, None]) -> None:
        """Runs a coroutine beside the others. A task is kept until it is done."""
        task = asyncio.ensure_future(work)
        self.tasks.add(task)
        task.add_done_callback(self.tasks.discard)

    async def obey(self, line: str) -> None:
        """Does what a line of the terminal asks for."""
        word, _, rest = line.strip().partition(" ")
        action = getattr(self, f"do_{word}", None)
        try:
            if action:
                await action(rest)
            elif word:
                say("no command:", word)
        except (ValueError, OSError, Error) as error:
            say("not done:", error)

    # -- commands of the user

    async def do_call(self, uri: str) -> None:
        if self.call:
            say("first hang up")
            return
        self.follow(await self.agent.call(uri, self.sdp("sendrecv")))
        say("calling", uri)

    async def do_answer(self, _: str) -> None:
        if isinstance(self.call, IncomingCall):
            self.call.answer(self.answer_to(self.call.invite.body))

    async def do_busy(self, _: str) -> None:
        if isinstance(self.call, IncomingCall):
            self.call.reject(486, "Busy Here")

    async def do_hold(self, _: str) -> None:
        self.spawn(self.offer("sendonly", "on hold"))

    async def do_resume(self, _: str) -> None:
        self.spawn(self.offer("sendrecv", "resumed"))

    async def do_tone(self, digit: str) -> None:
        if self.call:
            self.spawn(self.send_tone(self.call, digit))

    async def do_transfer(self, uri: str) -> None:
        if self.call:
            self.spawn(self.transfer(self.call, uri))

    async def do_hangup(self, _: str) -> None:
        if self.call:
            self.call.hang_up()

    # -- the call

    async def take_calls(self) -> None:
        async for call in self.agent.incoming():
            if self.call:
                call.reject(486, "Busy Here")
                continue
            self.follow(call)
            call.ring()
            say("call from", call.invite.value("From").partition(";tag=")[0])

    def follow(self, call: Call) -> None:
        """Makes this call the current one, until it ends."""
        self.call = call
        self.spawn(self.tell_of(call))

    async def tell_of(self, call: Call) -> None:
        async for event in call:
            self.tell(event)
        self.call = None
        say("ended")

    def tell(self, event: Event) -> None:
        if isinstance(event, Progress):
            say(event.status, event.reason)
        elif isinstance(event, Answered):
            say("up")
        elif isinstance(event, IncomingRequest):
            self.serve(event)
        elif event.response is not None:
            say(event.response.status, event.response.reason)

    def serve(self, request: IncomingRequest) -> None:
        """A request of the peer: a re-INVITE, which holds or resumes the call, or a tone."""
        if request.method == "INVITE":
            offer = request.message.body
            is_held = direction_of(offer) in ("sendonly", "inactive")
            say("held by the peer" if is_held else "no longer held")
            request.respond(200, "OK", self.answer_to(offer))
            return
        if request.method != "INFO":
            request.refuse()
            return
        tone = re.search(rb"Signal=\s*(\S)", request.message.body)
        if tone:
            say("tone", tone[1].decode())
        request.respond(200, "OK")

    async def offer(self, direction: str, done: str) -> None:
        """A re-INVITE, which holds or resumes the call."""
        if self.call and self.call.is_up:
            response = await self.call.request("INVITE", self.sdp(direction))
            say(done if response.is_success else f"not {done}: {response.status}")

    async def send_tone(self, call: Call, digit: str) -> None:
        body = f"Signal={digit}\r\nDuration=160\r\n".encode()
        response = await call.request("INFO", body, [TONE])
        if not response.is_success:
            say("no tone:", response.status)

    async def transfer(self, call: Call, uri: str) -> None:
        """Has the peer call a URI, and hangs up if that is answered."""
        try:
            response = await call.transfer(uri)
        except BadValueError as error:
            say("not transferred:", error)
            return
        say("transferred" if response.is_success else f"not transferred: {response.status}")
        if response.is_success:
            call.hang_up()

    def sdp(self, direction: str) -> bytes:
        """Audio to the port `discard`."""
        self.sdp_version += 1
        ip, _ = self.agent.endpoint.local
        return (
            f"v=0\r\no=- 1 {self.sdp_version} IN IP4 {ip}\r\ns=-\r\nc=IN IP4 {ip}\r\nt=0 0\r\n"
            f"m=audio 9 RTP/AVP 0\r\na=rtpmap:0 PCMU/8000\r\na={direction}\r\n"
        ).encode()

    def answer_to(self, offer: bytes) -> bytes:
        return self.sdp(ANSWERS.get(direction_of(offer), "sendrecv"))


async def keep_registered(registration: Registration) -> None:
    """Registers, and tells when a refresh fails."""
    try:
        await registration.start()
        say("registered")
        async for response in registration:
            if not response.is_success:
                say("not registered:", response.status)
    except RegistrationFailed as failed:
        say("not registered:", failed)


async def main(
    library: str, local: str, user: str, registrar: str = "", password: str = ""
) -> None:
    at = await address_of(f"sip:{registrar}") if registrar else None
    name = user.partition("@")[0]
    own = await address_of(f"sip:{local}")
    agent = await open_user_agent(
        library, own, f"sip:{user}", at, name, password, allow=(*ALLOW, "INFO")
    )
    lines = asyncio.StreamReader()
    loop = asyncio.get_running_loop()
    await loop.connect_read_pipe(lambda: asyncio.StreamReaderProtocol(lines), sys.stdin)
    async with agent, Registration(agent, f"sip:{user}", password) as registration:
        phone = Phone(agent)
        phone.spawn(phone.take_calls())
        if at:
            phone.spawn(keep_registered(registration))
        while line := (await lines.readline()).decode():
            if line.strip() == "quit":
                break
            await phone.obey(line)


if __name__ == "__main__":
    asyncio.run(main(*sys.argv[1:6]))
