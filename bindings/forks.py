"""Answers one call as two branches of a fork, each with a tag of its own, and says whether the
caller does as it has to: an ACK to each, a BYE to the second at once, and one to the first at last.

    forks.py PORT     at 127.0.0.1"""

import re
import socket
import sys
from typing import List, Optional

TAGS = ("one", "two")


def answer(request: str, status: str, tag: Optional[str] = None) -> str:
    """A response to a request, with a tag where it has none."""
    head = request.partition("\r\n\r\n")[0].split("\r\n")[1:]
    kept = [line for line in head if re.match("(?i)(via|from|to|call-id|cseq):", line)]
    lines = [
        line + f";tag={tag}" if tag and line.lower().startswith("to:") else line for line in kept
    ]
    contact = f"Contact: <sip:{tag or 'x'}@127.0.0.1:{sys.argv[1]}>"
    return "\r\n".join([f"SIP/2.0 {status}", *lines, contact, "Content-Length: 0", "", ""])


def main() -> int:
    udp = socket.socket(socket.AF_INET, socket.SOCK_DGRAM)
    udp.bind(("127.0.0.1", int(sys.argv[1])))
    udp.settimeout(10)
    seen: List[str] = []
    while seen.count("BYE one") == 0:
        data, source = udp.recvfrom(65535)
        request = data.decode()
        method = request.partition(" ")[0]
        to = re.search(r"(?im)^to:.*;tag=(\w+)", request)
        if method == "INVITE" and not seen:
            for status in ("180 Ringing", "200 OK"):
                for tag in TAGS:
                    udp.sendto(answer(request, status, tag).encode(), source)
        elif method == "BYE":
            udp.sendto(answer(request, "200 OK").encode(), source)
        seen.append(f"{method} {to[1]}" if to else method)
    print("  " + ", ".join(seen))
    return 0 if sorted(seen[1:3]) == ["ACK one", "ACK two"] and seen[3] == "BYE two" else 1


if __name__ == "__main__":
    sys.exit(main())
