/* What `test_code transactions HELD MORE` does, through the library: requests come one a round,
 * each is answered, and so many are held as soon as the first ends; then as many more; and all end.
 * bindings/run counts its instructions. `transactions HELD MORE` */
#include "sip_ua.h"

#include <stdio.h>
#include <stdlib.h>
#include <string.h>

/* How long a transaction is held after its answer, in ms. */
#define LIFE 32000

static sip_ua agent = SIP_UA_NONE;
static uint8_t text[65536];
static char call_id[64];
static size_t call_id_length = 0;
static sip_ua_id asked;
static unsigned long made = 0, told = 0, answered = 0;

static void must(uint32_t status, const char *call)
{
    if (status != SIP_UA_OK) {
        fprintf(stderr, "transactions: %s: status %u\n", call, (unsigned)status);
        exit(1);
    }
}

static const char up_to_branch[] = "OPTIONS sip:bob@127.0.0.1:5060 SIP/2.0\r\n"
                                   "Via: SIP/2.0/UDP 127.0.0.1:5070;rport;branch=z9hG4bK776asdhds";
static const char up_to_call_id[] = "\r\n"
                                    "Max-Forwards: 70\r\n"
                                    "From: \"Alice\" <sip:alice@127.0.0.1:5070>;tag=1928301774\r\n"
                                    "To: <sip:bob@127.0.0.1:5060>\r\n"
                                    "Call-ID: a84b4c76e66710-";
static const char up_to_end[] = "@127.0.0.1\r\nCSeq: 63104 OPTIONS\r\n\r\n";

static char *put(char *at, const char *from, size_t length)
{
    memcpy(at, from, length);
    return at + length;
}

static char *put_number(char *at, unsigned long number)
{
    char digits[24];
    size_t first = sizeof digits;
    do
        digits[--first] = (char)('0' + number % 10);
    while ((number /= 10) > 0);
    return put(at, digits + first, sizeof digits - first);
}

/* The text is put together as in the program in Rattle: what printf takes isn't to be counted. */
static void request(void)
{
    static const sip_ua_address peer = { { 127, 0, 0, 1 }, 5070 };
    char datagram[512];
    made++;
    char *at = put(datagram, up_to_branch, sizeof up_to_branch - 1);
    at = put_number(at, made);
    at = put(at, up_to_call_id, sizeof up_to_call_id - 1);
    at = put_number(at, made);
    at = put(at, up_to_end, sizeof up_to_end - 1);
    size_t length = (size_t)(at - datagram);
    must(sip_ua_datagram(&agent, &peer, (const uint8_t *)datagram, length), "datagram");
}

/* What was sent; and a request that is told, to be answered in the next round. */
static void take(const sip_ua_typed_output *output)
{
    if (output->kind == SIP_UA_SEND)
        answered += memcmp(text, "SIP/2.0 200 ", 12) == 0;
    if (output->kind != SIP_UA_NOTICE_REQUEST)
        return;
    if (output->call_id_len > sizeof call_id)
        exit(1);
    told++;
    asked = output->id;
    call_id_length = output->call_id_len;
    memcpy(call_id, sip_ua_texts_of(output, text).call_id.at, call_id_length);
}

static void answer(void)
{
    sip_ua_asked command;
    sip_ua_respond_fields fields = { { (const uint8_t *)call_id, call_id_length }, asked, 200, 0,
                                     sip_ua_string("OK"), { NULL, 0 }, NULL, 0 };
    must(sip_ua_respond(&agent, &fields, &command), "respond");
    call_id_length = 0;
}

static void run(uint64_t moment, int requests)
{
    sip_ua_typed_output output;
    if (call_id_length > 0)
        answer();
    if (requests > 0)
        request();
    must(sip_ua_run(&agent, moment), "run");
    for (;;) {
        must(sip_ua_next(&agent, &output, text, sizeof text), "next");
        if (output.kind == SIP_UA_NOTHING)
            return;
        take(&output);
    }
}

int main(int count, char **words)
{
    sip_ua_configuration start = { { { 127, 0, 0, 1 }, 5060 }, { 0 }, 0 };
    if (count != 3)
        return 2;
    unsigned long held = strtoul(words[1], NULL, 10), more = strtoul(words[2], NULL, 10);
    memset(start.seed, 7, sizeof start.seed);
    must(sip_ua_new(&agent, &start, 1), "new");
    if (held == 0)
        return 2;
    for (unsigned long turn = 0; turn < held + more; turn++)
        run(turn * LIFE / held, 1);
    uint64_t end = (held + more) * LIFE / held;
    run(end, 0);
    run(end + LIFE, 0);
    must(sip_ua_free(&agent), "free");
    printf("%lu made, %lu told, %lu answered\n", made, told, answered);
    return made == told && told == answered ? 0 : 1;
}
