/* A call over UDP: `call IP PORT TO-IP TO-PORT URI SECONDS` calls the URI at an address with an
 * offer, prints what happens, and hangs up SECONDS after the answer. If nobody answers within 20 s,
 * it cancels the call. On Linux it ends at once where the port is closed. It takes reliable
 * provisional responses. If several branches of a fork answer, it keeps the first. Its status is 0
 * if the call was answered and has ended, otherwise 1.
 *
 * Commands are functions with the fields of a request, and notices are structs, so the program
 * parses nothing but what ICMP quotes. It also shows a header of its own, the id of a command, and
 * how to read the datagram of a notice. */
#define _DEFAULT_SOURCE
#include "sip_ua.h"

#include <arpa/inet.h>
#include <errno.h>
#include <poll.h>
#include <stdio.h>
#include <stdlib.h>
#include <string.h>
#include <sys/random.h>
#include <sys/socket.h>
#include <time.h>
#include <unistd.h>

#define PATIENCE_MS 20000
/* How many datagrams go into one round; others wait in the socket. */
#define MOST_AT_ONCE 512
#define CALL_ID "call-c"

#define OFFER \
    "v=0\r\no=- 1 1 IN IP4 127.0.0.1\r\ns=-\r\nc=IN IP4 127.0.0.1\r\nt=0 0\r\n" \
    "m=audio 40000 RTP/AVP 0\r\n"

static uint8_t datagram[65536];
static uint8_t texts[65536];
static sip_ua agent = SIP_UA_NONE;
static int udp;
static sip_ua_address peer;
static uint64_t moment;
/* The INVITE, its own tag, the peer's once it is answered, its BYE; when to hang up or to cancel. */
static sip_ua_id invite, bye;
static char local_tag[256], remote_tag[256];
static bool is_answered, is_over, has_events;
static uint64_t until, seconds;

static uint64_t now(void)
{
    struct timespec time;
    clock_gettime(CLOCK_MONOTONIC, &time);
    return (uint64_t)time.tv_sec * 1000 + (uint64_t)time.tv_nsec / 1000000;
}

static void must(uint32_t status, const char *call)
{
    if (status != SIP_UA_OK) {
        fprintf(stderr, "call: %s: %s\n", call, sip_ua_status_text(status));
        exit(1);
    }
}

/* Ends the example if a command failed. */
static void asked(uint32_t status, const sip_ua_asked *told, const char *call)
{
    if (status == SIP_UA_BAD_FIELD)
        fprintf(stderr, "call: field %u\n", (unsigned)told->bad_field);
    must(status, call);
    has_events = true;
}

/* Hands over the datagrams that came. One that a round has no room for is lost, as any datagram may
 * be. */
static void receive(void)
{
    for (int count = 0; count < MOST_AT_ONCE; count++) {
        struct sockaddr_in from;
        socklen_t size = sizeof from;
        ssize_t len = recvfrom(udp, datagram, sizeof datagram, MSG_DONTWAIT,
                               (struct sockaddr *)&from, &size);
        if (len < 0)
            return;
        sip_ua_address source = { .port = ntohs(from.sin_port) };
        memcpy(source.ip, &from.sin_addr, 4);
        uint32_t status = sip_ua_datagram(&agent, &source, datagram, (size_t)len);
        if (status == SIP_UA_TOO_MANY_EVENTS)
            return;
        must(status, "sip_ua_datagram");
    }
}

/* Reports a send that can't go out. */
static void fail(const sip_ua_typed_output *output)
{
    must(sip_ua_failed(&agent, output->index), "sip_ua_failed");
    has_events = true;
}

/* Takes what ICMP says of the peer's port, if it is closed: the request whose method and branch it
 * quotes fails. Without Linux, and where a branch is no longer held, nothing happens. */
static void take_refusals(void)
{
#ifdef __linux__
    static char quote[2048];
    union { struct cmsghdr first; uint8_t room[512]; } told;
    char method[32], branch[128], line[192];
    for (;;) {
        struct sockaddr_in to = { 0 };
        struct iovec room = { quote, sizeof quote - 1 };
        struct msghdr message = { .msg_name = &to, .msg_namelen = sizeof to, .msg_iov = &room,
                                  .msg_iovlen = 1, .msg_control = &told,
                                  .msg_controllen = sizeof told };
        ssize_t len = recvmsg(udp, &message, MSG_ERRQUEUE | MSG_DONTWAIT);
        uint32_t error = 0;
        if (len < 0)
            return;
        quote[len] = '\0';
        if (CMSG_FIRSTHDR(&message) != NULL)
            memcpy(&error, CMSG_DATA(CMSG_FIRSTHDR(&message)), sizeof error);
        if (error != ECONNREFUSED || memcmp(&to.sin_addr, peer.ip, 4) != 0
            || to.sin_port != htons(peer.port)
            || sscanf(quote, "%31s %*s SIP/2.0 Via: %*[^\r;];rport;branch=%127[^\r;]", method,
                      branch) != 2)
            continue;
        len = snprintf(line, sizeof line, "failed client %s %s", branch, method);
        has_events |= sip_ua_event_line(&agent, line, (size_t)len) == SIP_UA_OK;
    }
#endif
}

static void send_output(const sip_ua_typed_output *output)
{
    /* Otherwise this send fails by the refusal of an earlier one. */
    take_refusals();
    struct sockaddr_in to = { .sin_family = AF_INET, .sin_port = htons(output->to.port) };
    memcpy(&to.sin_addr, output->to.ip, 4);
    if (sendto(udp, texts, output->body_len, 0, (struct sockaddr *)&to, sizeof to) < 0)
        fail(output);
}

/* Leaves out an output that is longer than any datagram. A send has failed then. */
static void skip(const sip_ua_typed_output *output)
{
    if (output->kind == SIP_UA_SEND)
        fail(output);
    must(sip_ua_skip(&agent), "sip_ua_skip");
}

/* Prints the reason of a response and who answers, read from its datagram. */
static void say(uint32_t place, unsigned status)
{
    static uint8_t reason[65536], contact[65536];
    sip_ua_start start;
    sip_ua_text value;
    must(sip_ua_start_line(&agent, place, &start, reason, sizeof reason), "sip_ua_start_line");
    must(sip_ua_header_value(&agent, place, "Contact", 7, 0, &value, contact, sizeof contact),
         "sip_ua_header_value");
    printf("%u %.*s %.*s\n", status, (int)start.len, (const char *)reason, (int)value.len,
           (const char *)contact);
}

/* Copies a tag out of the buffer. */
static void keep(sip_ua_bytes tag, char *room, size_t size)
{
    if (tag.len >= size) {
        fprintf(stderr, "call: a tag of %zu bytes\n", tag.len);
        exit(1);
    }
    memcpy(room, tag.at, tag.len);
    room[tag.len] = '\0';
}

/* Ends the dialog with this remote tag, and returns the id of its BYE. The local tag is our own: the
 * one of a response is what the peer has in its place. */
static sip_ua_id hang_up(sip_ua_bytes remote)
{
    sip_ua_asked told;
    sip_ua_request_fields fields = {
        .call_id = sip_ua_string(CALL_ID),
        .local_tag = sip_ua_string(local_tag),
        .remote_tag = remote,
        .method = sip_ua_string("BYE"),
    };
    asked(sip_ua_request(&agent, &fields, &told), &told, "sip_ua_request");
    return told.id;
}

/* A 2xx: the first one is the answer, and its ACK goes out by itself. So does that of another
 * branch of a fork, which is then ended. */
static void take_answer(const sip_ua_texts *said)
{
    if (is_answered) {
        hang_up(said->remote_tag);
    } else {
        is_answered = true;
        until = moment + 1000 * seconds;
        keep(said->remote_tag, remote_tag, sizeof remote_tag);
    }
}

/* A response to the INVITE, to its CANCEL, or to a BYE, by the id of its request. */
static void take_response(const sip_ua_typed_output *output, const sip_ua_texts *said)
{
    bool is_of_invite = sip_ua_is_id(output->id, invite);
    say(output->place, output->status);
    if (is_of_invite && output->status >= 200 && output->status < 300)
        take_answer(said);
    else if (output->status >= 200)
        is_over = is_over || is_of_invite || sip_ua_is_id(output->id, bye);
}

/* A request of the peer in the call gets a 200. */
static void answer(const sip_ua_typed_output *output)
{
    sip_ua_asked told;
    sip_ua_respond_fields fields = {
        .call_id = sip_ua_string(CALL_ID),
        .id = output->id,
        .status = 200,
        .reason = sip_ua_string("OK"),
    };
    asked(sip_ua_respond(&agent, &fields, &told), &told, "sip_ua_respond");
}

/* Handles a notice. */
static void tell(const sip_ua_typed_output *output)
{
    sip_ua_texts said = sip_ua_texts_of(output, texts);
    if (!sip_ua_is(said.call_id, CALL_ID))
        return;
    switch (output->kind) {
    case SIP_UA_NOTICE_RESPONSE:
        take_response(output, &said);
        break;
    case SIP_UA_NOTICE_REQUEST:
        answer(output);
        break;
    case SIP_UA_NOTICE_REFUSED:
        fprintf(stderr, "call: %s\n", sip_ua_refusal_text(output->refusal));
        is_over = true;
        break;
    case SIP_UA_NOTICE_TIMEOUT:
    case SIP_UA_NOTICE_FAILED:
        is_over = is_over || sip_ua_is_id(output->id, invite) || sip_ua_is_id(output->id, bye);
        break;
    case SIP_UA_NOTICE_ENDED:
        /* Ended by the peer, unless our BYE is on its way. */
        is_over = is_over || (!bye.is_given && sip_ua_is(said.remote_tag, remote_tag));
        break;
    }
}

static void run(void)
{
    sip_ua_typed_output output;
    has_events = false;
    moment = now();
    must(sip_ua_run(&agent, moment), "sip_ua_run");
    for (;;) {
        uint32_t status = sip_ua_next(&agent, &output, texts, sizeof texts);
        if (status == SIP_UA_NO_ROOM) {
            skip(&output);
            continue;
        }
        must(status, "sip_ua_next");
        if (output.kind == SIP_UA_NOTHING)
            return;
        if (sip_ua_is_reflected(&agent, &output, texts))
            continue;
        if (output.kind == SIP_UA_SEND)
            send_output(&output);
        else if (output.kind != SIP_UA_DROP)
            tell(&output);
    }
}

/* Calls: sends an INVITE with an offer and a header of the program's own. */
static void call(const char *uri, const char *own)
{
    sip_ua_asked told;
    sip_ua_header headers[] = {
        { sip_ua_string("User-Agent"), sip_ua_string("call.c") },
        { sip_ua_string("Content-Type"), sip_ua_string("application/sdp") },
    };
    sip_ua_invite_fields fields = {
        .call_id = sip_ua_string(CALL_ID),
        .address = peer,
        .request_uri = sip_ua_string(uri),
        .from = sip_ua_string(own),
        .to = sip_ua_string(uri),
        .supports_100rel = true,
        .body = sip_ua_string(OFFER),
        .headers = headers,
        .header_count = sizeof headers / sizeof *headers,
    };
    size_t len;
    asked(sip_ua_invite(&agent, &fields, &told), &told, "sip_ua_invite");
    invite = told.id;
    must(sip_ua_opening_tag(&agent, invite, &len, (uint8_t *)local_tag, sizeof local_tag - 1),
         "sip_ua_opening_tag");
}

static void cancel(void)
{
    sip_ua_asked told;
    sip_ua_cancel_fields fields = { .call_id = sip_ua_string(CALL_ID), .id = invite };
    asked(sip_ua_cancel(&agent, &fields, &told), &told, "sip_ua_cancel");
}

/* Hangs up, or cancels a call that nobody answers. */
static void end_call(void)
{
    if (is_answered)
        bye = hang_up(sip_ua_string(remote_tag));
    else
        cancel();
    until = UINT64_MAX;
}

/* How long to wait, in ms: until something is due, but no longer than the call lasts. */
static int patience(void)
{
    sip_ua_due due;
    must(sip_ua_next_due(&agent, &due), "sip_ua_next_due");
    uint64_t next = due.is_due && due.moment < until ? due.moment : until;
    uint64_t time = now();
    return next <= time ? 0 : next - time > 1000 ? 1000 : (int)(next - time);
}

int main(int count, char **words)
{
    sip_ua_configuration configuration = { 0 };
    struct sockaddr_in local = { .sin_family = AF_INET };
    struct in_addr peer_ip;
    char own[128];
    if (count != 7 || inet_pton(AF_INET, words[1], &local.sin_addr) != 1
        || inet_pton(AF_INET, words[3], &peer_ip) != 1) {
        fprintf(stderr, "usage: call IP PORT TO-IP TO-PORT URI SECONDS\n");
        return 2;
    }
    configuration.local.port = (uint16_t)atoi(words[2]);
    local.sin_port = htons(configuration.local.port);
    memcpy(configuration.local.ip, &local.sin_addr, 4);
    seconds = strtoull(words[6], NULL, 10);
    udp = socket(AF_INET, SOCK_DGRAM, 0);
#ifdef __linux__
    setsockopt(udp, IPPROTO_IP, IP_RECVERR, &(int){ 1 }, sizeof(int));
#endif
    if (udp < 0 || bind(udp, (struct sockaddr *)&local, sizeof local) != 0
        || getrandom(configuration.seed, sizeof configuration.seed, 0) < 0) {
        perror("call");
        return 1;
    }
    must(sip_ua_new(&agent, &configuration, 1), "sip_ua_new");
    memcpy(peer.ip, &peer_ip, 4);
    peer.port = (uint16_t)atoi(words[4]);
    snprintf(own, sizeof own, "sip:me@%s:%u", words[1], (unsigned)configuration.local.port);
    call(words[5], own);
    until = now() + PATIENCE_MS;
    while (!is_over || has_events) {
        struct pollfd waiting = { .fd = udp, .events = POLLIN };
        poll(&waiting, 1, has_events ? 0 : patience());
        take_refusals();
        receive();
        if (now() >= until)
            end_call();
        run();
    }
    must(sip_ua_free(&agent), "sip_ua_free");
    close(udp);
    return is_answered ? 0 : 1;
}
