"""Sends a datagram whose responses are too long for UDP to the Agent of sip_ua.py, to the endpoint
of sip_ua_udp.py, and to examples/c/answer.c. Each goes on: it answers the request after it.

    no_room.py LIBRARY ANSWER PORT

ANSWER is the built example. PORT and the three ports after it are free."""

import asyncio
import os
import socket
import subprocess
import sys
import time
from typing import List, Union

sys.path.insert(0, os.path.dirname(os.path.abspath(__file__)))
import sip_ua
from sip_ua_udp import open_endpoint


def message(method: str, via: str, call_id: str) -> bytes:
    return (
        f"{method} sip:b@127.0.0.1 SIP/2.0\r\nVia: {via}\r\nMax-Forwards: 70\r\n"
        "From: <sip:a@127.0.0.1>;tag=f1\r\nTo: <sip:b@127.0.0.1>\r\n"
        f"Call-ID: {call_id}\r\nCSeq: 1 {method}\r\nContact: <sip:a@127.0.0.1>\r\n\r\n"
    ).encode()


# Each Via stands on a line of its own in a response.
LONG = message("INVITE", "SIP/2.0/UDP h;branch=z9hG4bKx" + 4500 * ",SIP/2.0/UDP a", "c1")
NEXT = message("OPTIONS", "SIP/2.0/UDP h;rport;branch=z9hG4bKy", "c2")


def of_an_agent(library: str) -> bool:
    """The send comes whole and fails; so does the answer to the call."""
    with sip_ua.Agent(library, ("127.0.0.1", 5060), bytes(32)) as agent:
        agent.datagram(("127.0.0.1", 5061), LONG)
        first, request = sorted(agent.run(0), key=lambda it: not isinstance(it, sip_ua.Send))
        assert isinstance(first, sip_ua.Send)
        agent.failed(first.index)
        told = agent.run(1)
        agent.datagram(("127.0.0.1", 5061), NEXT)
        lines = agent.run_lines(2)
        return (
            len(first.datagram) > sip_ua.LARGEST_DATAGRAM
            and first.datagram.startswith(b"SIP/2.0 100 ")
            and first.datagram.count(b"\r\nVia: ") == 4501
            and first.datagram.endswith(b"\r\n\r\n")
            and isinstance(request, sip_ua.RequestNotice)
            and [type(it) for it in told] == [sip_ua.FailedNotice]
            and len(lines) == 1
        )


def is_answered(port: int, own: int) -> bool:
    """Whether a request is answered that follows the long one."""
    with socket.socket(socket.AF_INET, socket.SOCK_DGRAM) as udp:
        udp.bind(("127.0.0.1", own))
        udp.settimeout(10)
        udp.sendto(LONG, ("127.0.0.1", port))
        udp.sendto(NEXT, ("127.0.0.1", port))
        try:
            return udp.recv(65536).startswith(b"SIP/2.0 200 ")
        except socket.timeout:
            return False


async def of_an_endpoint(library: str, port: int) -> bool:
    failed: List[str] = []

    def told(output: Union[sip_ua.Notice, sip_ua.Drop]) -> None:
        if isinstance(output, sip_ua.RequestNotice):
            endpoint.ask(sip_ua.Response(output.call_id, output.id, 200, "OK"))
        elif isinstance(output, sip_ua.FailedNotice):
            failed.append(output.call_id)

    endpoint = await open_endpoint(library, ("127.0.0.1", port), told)
    endpoint.largest = len(LONG)
    answered = await asyncio.to_thread(is_answered, port, port + 1)
    endpoint.close()
    return answered and "c1" in failed


def of_answer(program: str, port: int) -> bool:
    with subprocess.Popen([program, "127.0.0.1", str(port), "4"]) as answering:
        time.sleep(1)
        return is_answered(port, port + 1) and answering.wait(20) == 0


def main() -> int:
    library, program, port = sys.argv[1], sys.argv[2], int(sys.argv[3])
    cases = (
        ("an agent", of_an_agent(library)),
        ("an endpoint", asyncio.run(of_an_endpoint(library, port))),
        ("answer.c", of_answer(program, port + 2)),
    )
    for name, holds in cases:
        print(f"  {name}: " + ("goes on" if holds else "FAILED"))
    return 0 if all(holds for _, holds in cases) else 1


if __name__ == "__main__":
    sys.exit(main())
