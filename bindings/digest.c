/* Digest of sip_ua_digest.h against the examples of RFC 2617, section 3.5, and RFC 7616, section
 * 3.9, and what sip_ua_registration.h reads of Contacts. Prints `digest: passed`. */
#include "sip_ua_registration.h"

#include <stdlib.h>

#define RFC_2617 \
    "Digest realm=\"testrealm@host.com\", qop=\"auth,auth-int\", " \
    "nonce=\"dcd98b7102dd2f0e8b11d0f600bfb0c093\", opaque=\"5ccc069c403ebaf9f0171e9517f40e41\""
#define RFC_7616(algorithm) \
    "Digest realm=\"http-auth@example.org\", qop=\"auth, auth-int\", algorithm=" algorithm ", " \
    "nonce=\"7ypf/xlj9XXwfDPEoM4URrv/xwf94BcCAzFZH4GiTo0v\", " \
    "opaque=\"FQhe/qaU925kfnzjCev0ciny7QMkPqMAFRtzCUYo5tdS\""

static void must(bool is_so, const char *what)
{
    if (!is_so) {
        fprintf(stderr, "digest: %s\n", what);
        exit(1);
    }
}

/* Whether the credentials for a challenge are these; `buffer` has them. */
static bool answers(const char *value, const char *password, const char *cnonce, uint32_t count,
                    const char *wanted, char buffer[1024])
{
    sip_ua_challenge challenge;
    sip_ua_proof proof = { sip_ua_string("Mufasa"), sip_ua_string(password), sip_ua_string("GET"),
                           sip_ua_string("/dir/index.html"), sip_ua_string(cnonce), count };
    size_t len = 0, again = 0;
    if (!sip_ua_challenge_read(sip_ua_string(value), &challenge)
        || sip_ua_credentials(&challenge, &proof, (uint8_t *)buffer, 1023, &len) != SIP_UA_OK)
        return false;
    buffer[len] = '\0';
    must(sip_ua_credentials(&challenge, &proof, NULL, 0, &again) == SIP_UA_NO_ROOM && again == len,
         "the length alone");
    return strstr(buffer, wanted) != NULL;
}

static void answer_examples(void)
{
    static const char cnonce[] = "f2/wE4q74E6zIJEtWaHKaf5wv/H5QzzpXusqGemxURZJ";
    char buffer[1024];
    must(answers(RFC_2617, "Circle Of Life", "0a4f113b", 1,
                 "response=\"6629fae49393a05397450978507c4ef1\", "
                 "opaque=\"5ccc069c403ebaf9f0171e9517f40e41\", cnonce=\"0a4f113b\", qop=auth, "
                 "nc=00000001",
                 buffer),
         "RFC 2617");
    must(answers(RFC_7616("MD5"), "Circle of Life", cnonce, 1,
                 "response=\"8ca523f5e9506fed4657c9700eebdbec\", algorithm=MD5", buffer),
         "RFC 7616, MD5");
    must(answers(RFC_7616("SHA-256"), "Circle of Life", cnonce, 1,
                 "response=\"753927fa0e85d155564e2e272a28d1802ca10daf4496794697cf8db5856cb6c1\"",
                 buffer),
         "RFC 7616, SHA-256");
    /* Worked out by Python's hashlib. */
    must(answers("digest realm=r,nonce=n,algorithm=md5-sess,qop=auth", "p", "c", 0x1a2b,
                 "response=\"9b231b1ff6b36490558415417cc5981a\"", buffer),
         "MD5-sess");
    must(strstr(buffer, "nc=00001a2b") != NULL, "the count");
    must(answers("Digest realm=\"r\", nonce=\"n\"", "p", "", 1,
                 "response=\"9751d92a32ff61a7c3716b4554ed66dd\"", buffer),
         "without qop");
    must(strstr(buffer, "cnonce") == NULL, "a cnonce without qop");
}

static void read_challenges(void)
{
    static const char *const unknown[] = {
        "",
        "Digest",
        "Digest realm",
        "Digest realm=",
        "Digest realm=\"r",
        "Digest realm=\"r\\",
        "Basic realm=\"r\", nonce=\"n\"",
        "Digest realm=\"r\"",
        "Digest nonce=\"n\"",
        "Digest realm=\"r\", nonce=\"n\", algorithm=SHA-512",
        "Digest realm=\"r\", nonce=\"n\", qop=\"auth-int\"",
    };
    sip_ua_challenge challenge;
    for (size_t i = 0; i < sizeof unknown / sizeof *unknown; i++) {
        /* A copy without a zero byte after it, so that the checks see a read beyond its end. */
        size_t len = strlen(unknown[i]);
        char *copy = (char *)malloc(len + (len == 0));
        sip_ua_bytes value = { copy, len };
        must(copy != NULL, "memory");
        memcpy(copy, unknown[i], len);
        must(!sip_ua_challenge_read(value, &challenge), unknown[i]);
        free(copy);
    }
    must(sip_ua_challenge_read(
             sip_ua_string(" Digest  realm = \"a \\\"b\\\"\" , nonce=\"n\",stale=TRUE, x=y"),
             &challenge)
             && sip_ua_is(challenge.realm, "a \\\"b\\\"") && challenge.is_stale
             && !challenge.has_opaque && !challenge.has_qop,
         "blanks and quotes");
}

/* The time that the parameter of one's own Contact grants, in a list; 0 without one. */
static uint32_t granted_in(const char *contacts)
{
    sip_ua_raw_text list = { contacts, contacts + strlen(contacts) };
    sip_ua_bytes uri, parameters;
    uint32_t granted = 0;
    while (sip_ua_raw_read_address(&list, &uri, &parameters))
        if (sip_ua_raw_is_same_uri(uri, "sip:alice@192.0.2.1:5060")
            && sip_ua_raw_expires_of(parameters, &granted))
            return granted;
    return 0;
}

static void read_contacts(void)
{
    must(granted_in("<sip:b@192.0.2.2>;expires=30, \"A, <B>\" <SIP:alice@192.0.2.1:5060;ob>"
                    ";q=\"1;expires=7\";Expires = 90")
             == 90,
         "words in quotes");
    must(granted_in("<sip:b@192.0.2.2>;expires=30 , <SIP:alice@192.0.2.1:5060;ob>;q=1;expires=90")
             == 90,
         "a Contact in a list");
    must(granted_in("sip:alice@192.0.2.1:5060;expires=\"80\"") == 80, "a URI alone");
    must(granted_in("<sip:alice@192.0.2.1:5060>") == 0, "no parameter");
    must(granted_in("<sip:alice@192.0.2.1:50601>;expires=9") == 0, "another port");
    must(granted_in("<sip:alice@192.0.2.1:5060>;expires=99999999999") == UINT32_MAX, "too large");
    must(granted_in("<sip:alice@192.0.2.1:5060>;expires") == 0
             && granted_in("<sip:alice@192.0.2.1:5060") == 0 && granted_in("\"") == 0
             && granted_in("") == 0 && granted_in(",,") == 0,
         "cut off");
}

int main(void)
{
    answer_examples();
    read_challenges();
    read_contacts();
    printf("digest: passed\n");
    return 0;
}
