"""Answers every request with 200, and goes on with its calls after it was killed.

    PYTHONPATH=bindings python3 examples/durable.py LIBRARY IP:PORT JOURNAL

Started again by the same words, it goes on from the file JOURNAL. The requests of the last round
are told again, so that each is answered."""

import asyncio
import signal
import sys
from typing import Optional, Union

from sip_ua import Drop, Notice, RequestNotice, Response
from sip_ua_udp import Endpoint, open_endpoint

SDP = (
    b"v=0\r\no=- 1 1 IN IP4 127.0.0.1\r\ns=-\r\nc=IN IP4 127.0.0.1\r\nt=0 0\r\n"
    b"m=audio 41000 RTP/AVP 0\r\n"
)


async def main(library: str, local: str, journal: str) -> None:
    endpoint: Optional[Endpoint] = None

    def told(output: Union[Notice, Drop]) -> None:
        if isinstance(output, RequestNotice) and endpoint is not None:
            body = SDP if output.method == "INVITE" else b""
            endpoint.ask(Response(output.call_id, output.id, 200, "OK", body))

    ip, _, port = local.partition(":")
    endpoint = await open_endpoint(library, (ip, int(port)), told, journal=journal)
    over = asyncio.Event()
    asyncio.get_running_loop().add_signal_handler(signal.SIGTERM, over.set)
    await over.wait()
    endpoint.close()


if __name__ == "__main__":
    if len(sys.argv) != 4:
        sys.exit(__doc__)
    asyncio.run(main(*sys.argv[1:]))
