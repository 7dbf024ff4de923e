/* Tries texts that are longer than the buffer: a datagram whose responses are too long for UDP,
 * taken by the loop of docs/EMBEDDING.md with several sizes of buffer; and the questions about a
 * datagram. bindings/run builds it with gcc's checks, and runs it under valgrind. */
#include "sip_ua.h"

#include <stdio.h>
#include <stdlib.h>

#define VIAS 4500
#define LINES "INVITE sip:b@192.0.2.1 SIP/2.0\r\nVia: SIP/2.0/UDP h;branch=z9hG4bKx"
#define REST \
    "\r\nMax-Forwards: 70\r\nFrom: <sip:a@192.0.2.9>;tag=f1\r\nTo: <sip:b@192.0.2.1>\r\n" \
    "Call-ID: c1\r\nCSeq: 1 INVITE\r\nContact: <sip:a@192.0.2.9>\r\n\r\n"
#define OPTIONS \
    "OPTIONS sip:b@192.0.2.1 SIP/2.0\r\nVia: SIP/2.0/UDP 192.0.2.9;branch=z9hG4bKy\r\n" \
    "From: <sip:a@192.0.2.9>;tag=f1\r\nTo: <sip:b@192.0.2.1>\r\nCall-ID: c2\r\n" \
    "CSeq: 1 OPTIONS\r\n\r\n"

static sip_ua agent = SIP_UA_NONE;

static void expect(bool holds, const char *what)
{
    if (!holds) {
        fprintf(stderr, "no_room: %s\n", what);
        exit(1);
    }
}

/* So many bytes, or NULL. */
static uint8_t *bytes(size_t count)
{
    uint8_t *buffer = count == 0 ? NULL : malloc(count);
    expect(count == 0 || buffer != NULL, "memory");
    return buffer;
}

static void datagram(const char *text)
{
    static const sip_ua_address peer = { { 192, 0, 2, 9 }, 5060 };
    expect(sip_ua_datagram(&agent, &peer, (const uint8_t *)text, strlen(text)) == SIP_UA_OK,
           "a datagram");
}

/* An INVITE of 63 KB. Each of its Vias stands on a line of its own in a response. */
static void invite(void)
{
    static const char via[] = ",SIP/2.0/UDP a";
    static char text[sizeof LINES + VIAS * sizeof via + sizeof REST];
    strcpy(text, LINES);
    char *end = text + strlen(text);
    for (int i = 0; i < VIAS; i++, end += sizeof via - 1)
        memcpy(end, via, sizeof via);
    strcpy(end, REST);
    datagram(text);
}

/* What the loop of a host did with the outputs of a round. */
struct taken {
    int sent, failed, told;
    sip_ua_id request;
};

static struct taken run(uint64_t moment, size_t room)
{
    struct taken taken = { 0, 0, 0, { false, 0, 0 } };
    uint8_t *buffer = bytes(room);
    expect(sip_ua_run(&agent, moment) == SIP_UA_OK, "a round");
    for (;;) {
        sip_ua_typed_output output;
        uint32_t status = sip_ua_next(&agent, &output, buffer, room);
        if (output.kind == SIP_UA_NOTICE_REQUEST)
            taken.request = output.id;
        expect((status == SIP_UA_NO_ROOM) == (sip_ua_texts_len(&output) > room), "room");
        if (status == SIP_UA_NO_ROOM) {
            if (output.kind == SIP_UA_SEND)
                taken.failed += sip_ua_failed(&agent, output.index) == SIP_UA_OK;
            expect(sip_ua_skip(&agent) == SIP_UA_OK, "an output is skipped");
        } else if (status != SIP_UA_OK || output.kind == SIP_UA_NOTHING) {
            expect(status == SIP_UA_OK && sip_ua_skip(&agent) == SIP_UA_OK, "no output is left");
            free(buffer);
            return taken;
        } else if (output.kind == SIP_UA_SEND) {
            taken.sent++;
        } else {
            taken.told++;
        }
    }
}

/* The next output comes again until it has room, also as a line. */
static void come_again(void)
{
    sip_ua_typed_output output;
    sip_ua_output line;
    expect(sip_ua_next(&agent, &output, NULL, 0) == SIP_UA_NO_ROOM, "the lengths");
    size_t len = sip_ua_texts_len(&output);
    expect(output.kind == SIP_UA_SEND && len > 65535, "a long response");
    uint8_t *buffer = bytes(len);
    expect(sip_ua_next(&agent, &output, buffer, len - 1) == SIP_UA_NO_ROOM, "one byte too few");
    expect(sip_ua_next_line(&agent, &line, buffer, len - 1) == SIP_UA_NO_ROOM, "also as a line");
    expect(line.index == output.index && line.len == len, "the same output");
    expect(sip_ua_next_line(&agent, &line, buffer, len) == SIP_UA_OK, "just enough");
    expect(memcmp(buffer, "SIP/2.0 100 ", 12) == 0, "its text");
    expect(sip_ua_next(&agent, &output, buffer, len) == SIP_UA_OK && output.index != line.index,
           "it is taken");
    expect(sip_ua_next(&agent, NULL, buffer, len) == SIP_UA_NULL
               && sip_ua_next(&agent, &output, NULL, len) == SIP_UA_NULL, "no buffer");
    free(buffer);
}

/* Each question about the datagram: its lengths, one byte too few, and just enough. */
static void questions(void)
{
    sip_ua_arrival arrival;
    sip_ua_start start;
    sip_ua_text text;
    size_t values, lines;
    expect(sip_ua_datagram_at(&agent, 1, &arrival, NULL, 0) == SIP_UA_NO_ROOM
               && sip_ua_start_line(&agent, 1, &start, NULL, 0) == SIP_UA_NO_ROOM
               && sip_ua_header_value(&agent, 1, "v", 1, 0, &text, NULL, 0) == SIP_UA_NO_ROOM
               && sip_ua_header_values(&agent, 1, "v", 1, &values, NULL, 0) == SIP_UA_NO_ROOM
               && sip_ua_header_lines(&agent, 1, &lines, NULL, 0) == SIP_UA_NO_ROOM,
           "the lengths of what a datagram says");
    size_t lens[] = { arrival.len, start.method_len + start.len, text.len, values, lines };
    for (size_t less = 0; less < 2; less++) {
        uint32_t status = less ? SIP_UA_NO_ROOM : SIP_UA_OK;
        uint8_t *buffers[5];
        for (int i = 0; i < 5; i++)
            buffers[i] = bytes(lens[i] - less);
        expect(sip_ua_datagram_at(&agent, 1, &arrival, buffers[0], lens[0] - less) == status
                   && sip_ua_start_line(&agent, 1, &start, buffers[1], lens[1] - less) == status
                   && sip_ua_header_value(&agent, 1, "v", 1, 0, &text, buffers[2], lens[2] - less)
                       == status
                   && sip_ua_header_values(&agent, 1, "v", 1, &values, buffers[3], lens[3] - less)
                       == status
                   && sip_ua_header_lines(&agent, 1, &lines, buffers[4], lens[4] - less) == status
                   && values == lens[3] && lines == lens[4], "what a datagram says");
        expect(less || (buffers[3][values - 1] == '\n' && values == text.len + 1
                   && memcmp(buffers[4], "Via:", 4) == 0 && buffers[4][lines - 1] == '\n'),
               "values and lines end");
        for (int i = 0; i < 5; i++)
            free(buffers[i]);
    }
    expect(sip_ua_datagram_at(&agent, 2, &arrival, NULL, 0) == SIP_UA_OK && !arrival.is_there
               && sip_ua_start_line(&agent, 2, &start, NULL, 0) == SIP_UA_OK
               && sip_ua_header_value(&agent, 2, "v", 1, 0, &text, NULL, 0) == SIP_UA_OK
               && sip_ua_header_values(&agent, 2, "v", 1, &values, NULL, 0) == SIP_UA_OK
               && sip_ua_header_lines(&agent, 2, &lines, NULL, 0) == SIP_UA_OK
               && values == 0 && lines == 0,
           "no datagram needs no room");
}

/* A call of the peer whose responses don't go out, and then a request that is answered. */
static void goes_on(size_t room)
{
    sip_ua_configuration start = { { { 192, 0, 2, 1 }, 5060 }, { 7 }, 0 };
    expect(sip_ua_new(&agent, &start, 1) == SIP_UA_OK, "an agent");
    invite();
    struct taken taken = run(0, room);
    expect(taken.failed == 1 && taken.sent == 0, "the 100 fails");
    run(1, room);
    datagram(OPTIONS);
    sip_ua_respond_fields fields = { sip_ua_string("c2"), run(2, room).request, 200, false,
                                     sip_ua_string("OK"), sip_ua_string(""), NULL, 0 };
    expect(sip_ua_respond(&agent, &fields, NULL) == SIP_UA_OK, "an answer");
    taken = run(3, room);
    expect(taken.sent + taken.failed == 1, "a later request is answered");
    expect(sip_ua_free(&agent) == SIP_UA_OK, "the end");
}

int main(void)
{
    sip_ua_configuration start = { { { 192, 0, 2, 1 }, 5060 }, { 7 }, 0 };
    expect(sip_ua_skip(&agent) == SIP_UA_NO_AGENT && sip_ua_skip(NULL) == SIP_UA_NULL, "no agent");
    expect(sip_ua_new(&agent, &start, 1) == SIP_UA_OK, "an agent");
    invite();
    expect(sip_ua_run(&agent, 0) == SIP_UA_OK, "a round");
    come_again();
    questions();
    expect(sip_ua_free(&agent) == SIP_UA_OK, "the end");
    goes_on(0);
    goes_on(1);
    goes_on(SIP_UA_LARGEST_DATAGRAM);
    puts("no_room: passed");
    return 0;
}
