"""Digest against the examples of RFC 2617, section 3.5, and RFC 7616, section 3.9."""

import re
import unittest
from hashlib import md5
from typing import Dict, Optional

from sip_ua_digest import Authenticator, Challenge, first_challenge

RFC_2617 = (
    'Digest realm="testrealm@host.com", qop="auth,auth-int", '
    'nonce="dcd98b7102dd2f0e8b11d0f600bfb0c093", opaque="5ccc069c403ebaf9f0171e9517f40e41"'
)
RFC_7616 = (
    'Digest realm="http-auth@example.org", qop="auth, auth-int", algorithm={}, '
    'nonce="7ypf/xlj9XXwfDPEoM4URrv/xwf94BcCAzFZH4GiTo0v", '
    'opaque="FQhe/qaU925kfnzjCev0ciny7QMkPqMAFRtzCUYo5tdS"'
)
CNONCE_7616 = "f2/wE4q74E6zIJEtWaHKaf5wv/H5QzzpXusqGemxURZJ"


def fields_of(credentials: str) -> Dict[str, str]:
    found = re.findall(r'(\w+)=(?:"([^"]*)"|([^\s,]+))', credentials)
    return {name: quoted or token for name, quoted, token in found}


def read(value: str) -> Challenge:
    challenge: Optional[Challenge] = Challenge.read(value)
    assert challenge is not None
    return challenge


class DigestTest(unittest.TestCase):
    def test_rfc_2617(self) -> None:
        value = read(RFC_2617).credentials(
            "Mufasa", "Circle Of Life", "GET", "/dir/index.html", 1, "0a4f113b"
        )
        fields = fields_of(value)
        self.assertEqual(fields["response"], "6629fae49393a05397450978507c4ef1")
        self.assertEqual(fields["opaque"], "5ccc069c403ebaf9f0171e9517f40e41")
        self.assertEqual((fields["qop"], fields["nc"]), ("auth", "00000001"))
        self.assertNotIn("algorithm", fields)

    def test_rfc_7616(self) -> None:
        responses = {
            "MD5": "8ca523f5e9506fed4657c9700eebdbec",
            "SHA-256": "753927fa0e85d155564e2e272a28d1802ca10daf4496794697cf8db5856cb6c1",
        }
        for algorithm, response in responses.items():
            value = read(RFC_7616.format(algorithm)).credentials(
                "Mufasa", "Circle of Life", "GET", "/dir/index.html", 1, CNONCE_7616
            )
            self.assertEqual(fields_of(value)["response"], response)
            self.assertEqual(fields_of(value)["algorithm"], algorithm)

    def test_without_qop(self) -> None:
        """The form of RFC 2069, which RFC 2617, section 3.2.2.1, keeps."""

        def digest(text: str) -> str:
            return md5(text.encode()).hexdigest()

        value = read('Digest realm="r", nonce="n"').credentials("u", "p", "REGISTER", "sip:r")
        wanted = digest(f"{digest('u:r:p')}:n:{digest('REGISTER:sip:r')}")
        self.assertEqual(fields_of(value)["response"], wanted)
        self.assertNotIn("cnonce", fields_of(value))

    def test_session(self) -> None:
        def digest(text: str) -> str:
            return md5(text.encode()).hexdigest()

        challenge = read('digest realm="r",nonce="n",algorithm=md5-sess,qop=auth')
        value = challenge.credentials("u", "p", "INVITE", "sip:r", 2, "c")
        secret = digest(f"{digest('u:r:p')}:n:c")
        wanted = digest(f"{secret}:n:00000002:c:auth:{digest('INVITE:sip:r')}")
        self.assertEqual(fields_of(value)["response"], wanted)

    def test_what_cannot_be_answered(self) -> None:
        for value in (
            "",
            'Basic realm="r"',
            'Digest realm="r"',
            'Digest nonce="n"',
            'Digest realm="r", nonce="n", algorithm=SHA-512',
            'Digest realm="r", nonce="n", qop="auth-int"',
        ):
            self.assertIsNone(Challenge.read(value), value)

    def test_the_first_that_is_known(self) -> None:
        values = ['Digest realm="a", nonce="1", algorithm=X', RFC_7616.format("SHA-256"), RFC_2617]
        challenge = first_challenge(values)
        assert challenge is not None
        self.assertEqual(challenge.algorithm, "SHA-256")

    def test_quotes(self) -> None:
        challenge = read(r'Digest realm="a \"b\" c", nonce="n", opaque=""')
        value = challenge.credentials('u"x', "p", "GET", "/")
        self.assertIn(r'username="u\"x", realm="a \"b\" c"', value)
        self.assertIn('opaque=""', value)

    def test_a_nonce_is_counted(self) -> None:
        authenticator = Authenticator("u", "p")
        self.assertEqual(authenticator.headers("REGISTER", "sip:r"), [])
        self.assertTrue(authenticator.takes(401, [RFC_2617], False))
        for count in ("00000001", "00000002"):
            ((name, value),) = authenticator.headers("REGISTER", "sip:r")
            self.assertEqual((name, fields_of(value)["nc"]), ("Authorization", count))
        self.assertFalse(authenticator.takes(401, [RFC_2617], True))
        self.assertTrue(authenticator.takes(401, [RFC_2617 + ", stale=TRUE"], True))
        self.assertTrue(authenticator.takes(407, [RFC_2617], False))
        names = [name for name, _ in authenticator.headers("INVITE", "sip:r")]
        self.assertEqual(names, ["Authorization", "Proxy-Authorization"])


if __name__ == "__main__":
    unittest.main()
