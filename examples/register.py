"""Registers with a password over the library, prints the status and the Contacts that the
registrar holds, and unregisters all of them.

    PYTHONPATH=bindings python3 examples/register.py LIBRARY LOCAL REGISTRAR NAME@DOMAIN PASSWORD

LOCAL and REGISTRAR are an address and a port, as in 192.0.2.1:5060. Its status is 0 if the
registrar answered 200 both times and holds no Contact at the end."""

import asyncio
import sys

from sip_ua_calls import address_of, open_user_agent
from sip_ua_registration import RegistrationFailed, register

EXPIRES_S = 600


async def main(library: str, local: str, registrar: str, user: str, password: str) -> int:
    at = await address_of(f"sip:{registrar}")
    async with await open_user_agent(library, await address_of(f"sip:{local}")) as agent:
        try:
            kept = await register(agent, f"sip:{user}", password, at, expires_s=EXPIRES_S)
        except RegistrationFailed as failed:
            print(failed)
            return 1
        print(kept.response.status, *kept.contacts)
        response = await kept.unregister(all_bindings=True)
        print(response.status, *kept.contacts)
        return 0 if response.status == 200 and not kept.contacts else 1


if __name__ == "__main__":
    sys.exit(asyncio.run(main(*sys.argv[1:6])))
