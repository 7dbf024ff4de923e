/* An agent that answers over UDP: OPTIONS and other requests with 200, and calls with 180 and with
 * 200 and an SDP answer, until they are ended.
 *
 *     answer IP PORT [SECONDS [OUTSIDE-IP OUTSIDE-PORT]]
 *
 * Without SECONDS it ends at SIGINT or SIGTERM. Then it ends its calls. Behind a NAT, the last two
 * are the address at which peers reach the socket.
 *
 * The loop of a host: wait for a datagram, or until something is due. Hand over what came, run a
 * round, send the datagrams, and respond to the requests. Responses, and sends that failed, are
 * events of the next round, which runs at once. */
#define _POSIX_C_SOURCE 200809L
#include "sip_ua.h"

#include <arpa/inet.h>
#include <poll.h>
#include <signal.h>
#include <stdio.h>
#include <stdlib.h>
#include <string.h>
#include <sys/random.h>
#include <sys/socket.h>
#include <time.h>
#include <unistd.h>

/* How many datagrams go into one round; others wait in the socket. */
#define MOST_AT_ONCE 512
/* How many calls are held at one time. Another one gets 503, and may come again after this time, in
 * s. */
#define MOST_CALLS 16384
#define RETRY_AFTER "10"
/* How long the ends of calls are waited for, in ms. */
#define LEAVE_MS 5000

/* The answer to an offer of audio, and the offer if an INVITE has none. Media isn't shown here: a
 * phone reads the offer, and answers each of its media lines. */
#define SDP \
    "v=0\r\no=- 1 1 IN IP4 127.0.0.1\r\ns=-\r\nc=IN IP4 127.0.0.1\r\nt=0 0\r\n" \
    "m=audio 41000 RTP/AVP 0\r\n"

static uint8_t datagram[65536];
static uint8_t texts[65536];
static sip_ua agent = SIP_UA_NONE;
static int udp;
static bool has_events;

/* A call that was answered. It is up once its ACK has come. After our BYE it is held until the
 * response. */
typedef struct dialog {
    bool is_held;
    bool is_up;
    bool is_left;
    sip_ua_id invite, bye;
    char call_id[256], local_tag[128], remote_tag[128];
} dialog;

/* Those that are held lie among the first `used`. */
static dialog dialogs[MOST_CALLS];
static size_t used, held_dialogs;
static bool is_leaving;
static volatile sig_atomic_t is_interrupted;

static void interrupt(int number)
{
    (void)number;
    is_interrupted = 1;
}

static uint64_t now(void)
{
    struct timespec time;
    clock_gettime(CLOCK_MONOTONIC, &time);
    return (uint64_t)time.tv_sec * 1000 + (uint64_t)time.tv_nsec / 1000000;
}

static void must(uint32_t status, const char *call)
{
    if (status != SIP_UA_OK) {
        fprintf(stderr, "answer: %s: %s\n", call, sip_ua_status_text(status));
        exit(1);
    }
}

/* Hands over the datagrams that came. One that a round has no room for is lost, as any datagram may
 * be. */
static void receive(void)
{
    for (int count = 0; count < MOST_AT_ONCE; count++) {
        struct sockaddr_in from;
        socklen_t size = sizeof from;
        ssize_t len = recvfrom(udp, datagram, sizeof datagram, MSG_DONTWAIT,
                               (struct sockaddr *)&from, &size);
        if (len < 0)
            return;
        sip_ua_address source = { .port = ntohs(from.sin_port) };
        memcpy(source.ip, &from.sin_addr, 4);
        uint32_t status = sip_ua_datagram(&agent, &source, datagram, (size_t)len);
        if (status == SIP_UA_TOO_MANY_EVENTS)
            return;
        must(status, "sip_ua_datagram");
    }
}

/* Reports a send that can't go out. */
static void fail(const sip_ua_typed_output *output)
{
    must(sip_ua_failed(&agent, output->index), "sip_ua_failed");
    has_events = true;
}

/* Sends a datagram. The socket refuses one that is too long for UDP. */
static void send_output(const sip_ua_typed_output *output)
{
    struct sockaddr_in to = { .sin_family = AF_INET, .sin_port = htons(output->to.port) };
    memcpy(&to.sin_addr, output->to.ip, 4);
    if (sendto(udp, texts, output->body_len, 0, (struct sockaddr *)&to, sizeof to) < 0)
        fail(output);
}

/* Leaves out an output that is longer than any datagram. A send has failed then. */
static void skip(const sip_ua_typed_output *output)
{
    if (output->kind == SIP_UA_SEND)
        fail(output);
    must(sip_ua_skip(&agent), "sip_ua_skip");
}

/* Responds to a request. With 503 goes a Retry-After. */
static void respond(const sip_ua_typed_output *request, uint16_t status, const char *reason,
                    const char *body)
{
    sip_ua_header retry_after = { sip_ua_string("Retry-After"), sip_ua_string(RETRY_AFTER) };
    sip_ua_respond_fields fields = {
        .call_id = sip_ua_texts_of(request, texts).call_id,
        .id = request->id,
        .status = status,
        .reason = sip_ua_string(reason),
        .body = sip_ua_string(body),
        .headers = &retry_after,
        .header_count = status == 503 ? 1 : 0,
    };
    must(sip_ua_respond(&agent, &fields, NULL), "sip_ua_respond");
    has_events = true;
}

/* Copies a text; false if it has no room. */
static bool keep(sip_ua_bytes text, char *room, size_t size)
{
    if (text.len >= size)
        return false;
    memcpy(room, text.at, text.len);
    room[text.len] = '\0';
    return true;
}

/* The call with these texts of a notice, or NULL. */
static dialog *dialog_of(const sip_ua_texts *said)
{
    for (size_t i = 0; i < used; i++)
        if (dialogs[i].is_held && sip_ua_is(said->call_id, dialogs[i].call_id)
            && sip_ua_is(said->local_tag, dialogs[i].local_tag)
            && sip_ua_is(said->remote_tag, dialogs[i].remote_tag))
            return &dialogs[i];
    return NULL;
}

/* The call whose INVITE or BYE has this id, or NULL. */
static dialog *dialog_with(sip_ua_id id)
{
    for (size_t i = 0; i < used; i++)
        if (dialogs[i].is_held
            && (sip_ua_is_id(id, dialogs[i].invite) || sip_ua_is_id(id, dialogs[i].bye)))
            return &dialogs[i];
    return NULL;
}

/* Holds a new call; NULL if there is no room for it. */
static dialog *hold(const sip_ua_typed_output *request, const sip_ua_texts *said)
{
    for (size_t i = 0; i < MOST_CALLS; i++) {
        dialog *one = &dialogs[i];
        if (one->is_held)
            continue;
        memset(one, 0, sizeof *one);
        one->invite = request->id;
        one->is_held = keep(said->call_id, one->call_id, sizeof one->call_id)
            && keep(said->local_tag, one->local_tag, sizeof one->local_tag)
            && keep(said->remote_tag, one->remote_tag, sizeof one->remote_tag);
        if (!one->is_held)
            return NULL;
        held_dialogs++;
        used = i < used ? used : i + 1;
        return one;
    }
    return NULL;
}

static void drop(dialog *one)
{
    one->is_held = false;
    held_dialogs--;
    while (used > 0 && !dialogs[used - 1].is_held)
        used--;
}

/* A call of a peer. */
static void take_call(const sip_ua_typed_output *request, const sip_ua_texts *said)
{
    if (is_leaving) {
        respond(request, 480, "Temporarily Unavailable", "");
    } else if (hold(request, said) == NULL) {
        respond(request, 503, "Service Unavailable", "");
    } else {
        respond(request, 180, "Ringing", "");
        respond(request, 200, "OK", SDP);
    }
}

static void answer(const sip_ua_typed_output *request, const sip_ua_texts *said)
{
    if (!sip_ua_is(said->method, "INVITE"))
        respond(request, 200, "OK", "");
    else if (dialog_of(said) != NULL)
        respond(request, 200, "OK", SDP); /* a re-INVITE */
    else
        take_call(request, said);
}

/* Ends a call by a BYE. */
static void hang_up(dialog *one)
{
    sip_ua_asked asked;
    sip_ua_request_fields fields = {
        .call_id = sip_ua_string(one->call_id),
        .local_tag = sip_ua_string(one->local_tag),
        .remote_tag = sip_ua_string(one->remote_tag),
        .method = sip_ua_string("BYE"),
    };
    must(sip_ua_request(&agent, &fields, &asked), "sip_ua_request");
    one->bye = asked.id;
    one->is_left = true;
    has_events = true;
}

/* Ends the calls that are up. The others have no ACK yet, and their BYE waits for it (RFC 3261,
 * section 15). */
static void leave(void)
{
    is_leaving = true;
    for (size_t i = 0; i < used; i++)
        if (dialogs[i].is_held && dialogs[i].is_up && !dialogs[i].is_left)
            hang_up(&dialogs[i]);
}

/* A notice about the INVITE or the BYE of a call. */
static void tell_of_dialog(const sip_ua_typed_output *output, dialog *one)
{
    switch (output->kind) {
    case SIP_UA_NOTICE_ACK:
        one->is_up = true;
        if (is_leaving && !one->is_left)
            hang_up(one);
        break;
    case SIP_UA_NOTICE_NO_ACK:
        if (!one->is_left)
            hang_up(one);
        break;
    case SIP_UA_NOTICE_RESPONSE:
        if (output->status >= 200)
            drop(one);
        break;
    case SIP_UA_NOTICE_TIMEOUT:
    case SIP_UA_NOTICE_FAILED:
        drop(one);
        break;
    }
}

/* Our BYE was refused: the peer's came first. */
static void drop_refused(sip_ua_bytes call_id)
{
    for (size_t i = 0; i < used; i++)
        if (dialogs[i].is_held && dialogs[i].is_left && sip_ua_is(call_id, dialogs[i].call_id))
            drop(&dialogs[i]);
}

static void tell(const sip_ua_typed_output *output)
{
    sip_ua_texts said = sip_ua_texts_of(output, texts);
    dialog *one;
    if (output->kind == SIP_UA_NOTICE_REQUEST) {
        answer(output, &said);
    } else if (output->kind == SIP_UA_NOTICE_ENDED) {
        /* By the peer's BYE. After our own its response is waited for. */
        one = dialog_of(&said);
        if (one != NULL && !one->is_left)
            drop(one);
    } else if (output->kind == SIP_UA_NOTICE_REFUSED) {
        drop_refused(said.call_id);
    } else if ((one = dialog_with(output->id)) != NULL) {
        tell_of_dialog(output, one);
    }
}

/* Runs a round and handles its outputs. */
static void run(void)
{
    sip_ua_typed_output output;
    has_events = false;
    must(sip_ua_run(&agent, now()), "sip_ua_run");
    for (;;) {
        uint32_t status = sip_ua_next(&agent, &output, texts, sizeof texts);
        if (status == SIP_UA_NO_ROOM) {
            skip(&output);
            continue;
        }
        must(status, "sip_ua_next");
        if (output.kind == SIP_UA_NOTHING)
            return;
        if (sip_ua_is_reflected(&agent, &output, texts))
            continue;
        if (output.kind == SIP_UA_SEND)
            send_output(&output);
        else if (output.kind != SIP_UA_DROP)
            tell(&output);
    }
}

/* How long to wait, in ms: until something is due, or forever. */
static int patience(uint64_t end)
{
    sip_ua_due due;
    uint64_t moment = now();
    must(sip_ua_next_due(&agent, &due), "sip_ua_next_due");
    uint64_t until = due.is_due && due.moment < end ? due.moment : end;
    if (until == UINT64_MAX)
        return -1;
    return until <= moment ? 0 : until - moment > 1000000 ? 1000000 : (int)(until - moment);
}

static bool read_address(const char *ip, const char *port, struct sockaddr_in *address)
{
    memset(address, 0, sizeof *address);
    address->sin_family = AF_INET;
    address->sin_port = htons((uint16_t)atoi(port));
    return inet_pton(AF_INET, ip, &address->sin_addr) == 1;
}

int main(int count, char **words)
{
    sip_ua_configuration configuration = { 0 };
    struct sockaddr_in local, outside;
    if (count < 3 || count == 5 || count > 6 || !read_address(words[1], words[2], &local)
        || !read_address(words[count == 6 ? 4 : 1], words[count == 6 ? 5 : 2], &outside)) {
        fprintf(stderr, "usage: answer IP PORT [SECONDS [OUTSIDE-IP OUTSIDE-PORT]]\n");
        return 2;
    }
    /* What Via and Contact say need not be the socket's own address. */
    configuration.local.port = ntohs(outside.sin_port);
    memcpy(configuration.local.ip, &outside.sin_addr, 4);
    udp = socket(AF_INET, SOCK_DGRAM, 0);
    if (udp < 0 || bind(udp, (struct sockaddr *)&local, sizeof local) != 0
        || getrandom(configuration.seed, sizeof configuration.seed, 0) < 0) {
        perror("answer");
        return 1;
    }
    must(sip_ua_new(&agent, &configuration, 1), "sip_ua_new");
    signal(SIGINT, interrupt);
    signal(SIGTERM, interrupt);
    uint64_t end = count > 3 ? now() + 1000 * strtoull(words[3], NULL, 10) : UINT64_MAX;
    while (!is_leaving || ((has_events || held_dialogs > 0) && now() < end)) {
        struct pollfd waiting = { .fd = udp, .events = POLLIN };
        poll(&waiting, 1, has_events ? 0 : patience(end));
        receive();
        if (!is_leaving && (is_interrupted || now() >= end)) {
            leave();
            end = now() + LEAVE_MS;
        }
        run();
    }
    must(sip_ua_free(&agent), "sip_ua_free");
    close(udp);
    return 0;
}
