"""Connects two phones: calls the first one, and once it answers, the second one, with what the
first offers. When one hangs up, so does the other (RFC 3725, section 4.1).

    PYTHONPATH=bindings python3 examples/click_to_call.py LIBRARY LOCAL FIRST SECOND

LOCAL is an address and a port, as in 192.0.2.1:5060, FIRST and SECOND are URIs. The first phone
sends its answer again and again until the second one answers, at most 32 s. Its status is 0 if both
have answered."""

import asyncio
import sys

from sip_ua_calls import CallFailed, UserAgent, address_of, open_user_agent

RING_S = 30.0


async def connect(agent: UserAgent, first_uri: str, second_uri: str) -> None:
    """Connects the two, until one of them hangs up."""
    # Without an offer, the phone that answers makes one.
    first = await agent.call(first_uri)
    calls = [first]
    try:
        offer = await asyncio.wait_for(first.answered(), RING_S)
        print("the first has answered", flush=True)
        second = await agent.call(second_uri, offer.body)
        calls.append(second)
        answer = await asyncio.wait_for(second.answered(), RING_S)
        first.acknowledge(answer.body)
        print("connected", flush=True)
        ends = [asyncio.ensure_future(call.ended()) for call in calls]
        await asyncio.wait(ends, return_when=asyncio.FIRST_COMPLETED)
    finally:
        for call in calls:
            call.hang_up()


async def main(library: str, local: str, first: str, second: str) -> int:
    async with await open_user_agent(library, await address_of(f"sip:{local}")) as agent:
        try:
            await connect(agent, first, second)
        except (CallFailed, asyncio.TimeoutError) as failed:
            print("not connected:", failed or "no answer", flush=True)
            return 1
    return 0


if __name__ == "__main__":
    sys.exit(asyncio.run(main(*sys.argv[1:5])))
