/* An agent that answers every request with 200, and goes on with its calls after it was killed.
 *
 *     durable IP PORT JOURNAL
 *
 * Each round is appended to the file JOURNAL before one of its datagrams is sent. Started again by
 * the same words, it runs the rounds of the journal again, without sending, and then goes on. What
 * the last round sent may be lost; retransmissions mend that. The requests of the last round are
 * answered again, since their answers may not have been asked for. It ends at SIGTERM. */
#define _GNU_SOURCE
#include "sip_ua.h"

#include <arpa/inet.h>
#include <errno.h>
#include <fcntl.h>
#include <inttypes.h>
#include <poll.h>
#include <signal.h>
#include <stdio.h>
#include <stdlib.h>
#include <string.h>
#include <sys/file.h>
#include <sys/random.h>
#include <sys/socket.h>
#include <sys/stat.h>
#include <time.h>
#include <unistd.h>

/* How many datagrams go into one round: its lines have to be read again, up to 64 MiB. */
#define MOST_AT_ONCE 64
#define SDP \
    "v=0\r\no=- 1 1 IN IP4 127.0.0.1\r\ns=-\r\nc=IN IP4 127.0.0.1\r\nt=0 0\r\n" \
    "m=audio 41000 RTP/AVP 0\r\n"
#define ROUND "\nround "

static uint8_t datagram[65536], texts[65536];
static sip_ua agent = SIP_UA_NONE;
static int udp, journal;
static uint8_t *lines;
static size_t lines_room;
static uint64_t last_moment;
static bool has_events;
static volatile sig_atomic_t is_over;

static void end(int number)
{
    (void)number;
    is_over = 1;
}

static void die(const char *what, const char *why)
{
    fprintf(stderr, "durable: %s: %s\n", what, why);
    exit(1);
}

static void must(uint32_t status, const char *call)
{
    if (status != SIP_UA_OK)
        die(call, sip_ua_status_text(status));
}

/* Ms since 1970, so that time goes on while no process runs. It never goes back. */
static uint64_t now(void)
{
    struct timespec time;
    clock_gettime(CLOCK_REALTIME, &time);
    uint64_t moment = (uint64_t)time.tv_sec * 1000 + (uint64_t)time.tv_nsec / 1000000;
    return moment > last_moment ? moment : last_moment;
}

/* ---- the journal */

/* By one write; what the journal doesn't have isn't sent. */
static void append(const void *text, size_t len)
{
    if (write(journal, text, len) != (ssize_t)len)
        die("journal", strerror(errno));
}

static void append_round(void)
{
    size_t len;
    uint32_t status;
    while ((status = sip_ua_round_text(&agent, &len, lines, lines_room)) == SIP_UA_NO_ROOM) {
        lines_room = len;
        lines = realloc(lines, lines_room);
        if (lines == NULL)
            die("journal", "no memory");
    }
    must(status, "sip_ua_round_text");
    append(lines, len);
}

static void append_head(const sip_ua_configuration *configuration)
{
    char head[256];
    const uint8_t *ip = configuration->local.ip;
    int at = sprintf(head, "sip-session 1\nlocal %u.%u.%u.%u:%u\nseed ", ip[0], ip[1], ip[2], ip[3],
                     configuration->local.port);
    for (size_t i = 0; i < sizeof configuration->seed; i++)
        at += sprintf(head + at, "%02x", configuration->seed[i]);
    at += sprintf(head + at, "\nfirst 0\n");
    append(head, (size_t)at);
}

/* Reads the seed of a head, which has to be of the same address, and the number of its first round:
 * after `ua compact` that isn't 0. Returns the bytes of the head. */
static size_t read_head(const char *text, sip_ua_configuration *configuration)
{
    unsigned ip[4], port, byte;
    int seed_at = 0, len = 0;
    if (sscanf(text, "sip-session 1\nlocal %u.%u.%u.%u:%u\nseed %n%*64[0-9a-f]\nfirst %" SCNu64 "%n",
               &ip[0], &ip[1], &ip[2], &ip[3], &port, &seed_at, &configuration->first, &len) != 6
        || text[len] != '\n')
        die("journal", "not a journal");
    for (int i = 0; i < 4; i++)
        if (ip[i] != configuration->local.ip[i])
            die("journal", "of another address");
    if (port != configuration->local.port)
        die("journal", "of another address");
    for (size_t i = 0; i < sizeof configuration->seed; i++) {
        sscanf(text + seed_at + 2 * i, "%2x", &byte);
        configuration->seed[i] = (uint8_t)byte;
    }
    return (size_t)len;
}

/* Gives the events of the last round to the agent again. Returns the bytes that are whole. */
static size_t add_events(const char *text, size_t at, size_t len)
{
    size_t begin = at;
    while (at < len) {
        const char *line_end = memchr(text + at, '\n', len - at);
        if (line_end == NULL)
            return begin;
        bool is_header = text[at] == ' ';
        at = (size_t)(line_end - text) + 1;
        if (is_header)
            continue; /* it belongs to the command after it */
        uint32_t status = sip_ua_event_lines(&agent, text + begin, at - 1 - begin);
        if (status == SIP_UA_BAD_LINE)
            return begin;
        must(status, "sip_ua_event_lines");
        begin = at;
    }
    return begin;
}

/* Where the last round begins, at the line feed before it. */
static size_t last_round(char *text, size_t at, size_t len)
{
    size_t last = at;
    for (char *found = text + at; (found = memmem(found, len - (size_t)(found - text), ROUND, 7));
         found++)
        last = (size_t)(found - text);
    return last;
}

/* Where the last line before an end begins. */
static size_t last_line(const char *text, size_t end)
{
    while (text[end - 1] != '\n')
        end--;
    return end;
}

/* How many bytes are left without a last round that was torn: it ends within its first line or
 * within an event. It had no effect, and what it asked for is asked for again, since the requests
 * of the round before are told again. */
static size_t whole_rounds(char *text, size_t at, size_t len)
{
    size_t end = last_line(text, len), word = strlen(ROUND) - 1;
    bool is_between = strncmp(text + end, &ROUND[1], len - end < word ? len - end : word) == 0;
    bool is_event = end == at + 1 || text[last_line(text, end - 1)] != ' ';
    return is_between && is_event ? end : last_round(text, at, len) + 1;
}

/* Runs all rounds but the last one again. The outputs of the last one are left to `run`. Returns
 * whether there is one. `at` is where the rounds begin, with the line feed before them. */
static bool go_on(char *text, size_t at, size_t len)
{
    len = whole_rounds(text, at, len);
    size_t last = last_round(text, at, len);
    while (at < last) {
        sip_ua_resumed resumed;
        must(sip_ua_resume(&agent, text + at + 1, last - at, &resumed), "sip_ua_resume");
        at += resumed.len;
    }
    const char *line_end = at + 1 < len ? memchr(text + at + 1, '\n', len - at - 1) : NULL;
    if (line_end == NULL) {
        if (ftruncate(journal, (off_t)at + 1) != 0)
            die("journal", strerror(errno));
        return false;
    }
    last_moment = strtoull(text + at + 7, NULL, 10);
    size_t whole = add_events(text, (size_t)(line_end - text) + 1, len);
    if (ftruncate(journal, (off_t)whole) != 0)
        die("journal", strerror(errno));
    must(sip_ua_run(&agent, last_moment), "sip_ua_run");
    return true;
}

/* Makes the agent: a new one, or that of the journal. Returns whether its last round is run. */
static bool begin(const char *path, sip_ua_configuration *configuration)
{
    struct stat found;
    journal = open(path, O_RDWR | O_CREAT | O_APPEND | O_NOFOLLOW, 0600);
    if (journal < 0 || flock(journal, LOCK_EX | LOCK_NB) != 0 || fstat(journal, &found) != 0)
        die(path, strerror(errno));
    size_t len = (size_t)found.st_size;
    if (len == 0) {
        if (getrandom(configuration->seed, sizeof configuration->seed, 0) < 0)
            die("getrandom", strerror(errno));
        append_head(configuration);
        must(sip_ua_new(&agent, configuration, 1), "sip_ua_new");
        return false;
    }
    char *text = calloc(len + 1, 1);
    if (text == NULL || pread(journal, text, len, 0) != (ssize_t)len)
        die(path, "can't be read");
    size_t at = read_head(text, configuration);
    must(sip_ua_new(&agent, configuration, 1), "sip_ua_new");
    bool has_round = go_on(text, at, len);
    free(text);
    return has_round;
}

/* ---- a round */

static void receive(void)
{
    for (int count = 0; count < MOST_AT_ONCE; count++) {
        struct sockaddr_in from;
        socklen_t size = sizeof from;
        ssize_t len = recvfrom(udp, datagram, sizeof datagram, MSG_DONTWAIT,
                               (struct sockaddr *)&from, &size);
        if (len < 0)
            return;
        sip_ua_address source = { .port = ntohs(from.sin_port) };
        memcpy(source.ip, &from.sin_addr, 4);
        must(sip_ua_datagram(&agent, &source, datagram, (size_t)len), "sip_ua_datagram");
        has_events = true;
    }
}

static void fail(const sip_ua_typed_output *output)
{
    must(sip_ua_failed(&agent, output->index), "sip_ua_failed");
    has_events = true;
}

static void send_output(const sip_ua_typed_output *output)
{
    struct sockaddr_in to = { .sin_family = AF_INET, .sin_port = htons(output->to.port) };
    memcpy(&to.sin_addr, output->to.ip, 4);
    if (sendto(udp, texts, output->body_len, 0, (struct sockaddr *)&to, sizeof to) < 0)
        fail(output);
}

static void respond(const sip_ua_typed_output *request)
{
    sip_ua_texts said = sip_ua_texts_of(request, texts);
    sip_ua_respond_fields fields = {
        .call_id = said.call_id,
        .id = request->id,
        .status = 200,
        .reason = sip_ua_string("OK"),
        .body = sip_ua_string(sip_ua_is(said.method, "INVITE") ? SDP : ""),
    };
    must(sip_ua_respond(&agent, &fields, NULL), "sip_ua_respond");
    has_events = true;
}

/* Takes the outputs of a round. Those of the last round of a journal aren't sent again. */
static void take_outputs(bool sends)
{
    sip_ua_typed_output output;
    has_events = false;
    for (;;) {
        uint32_t status = sip_ua_next(&agent, &output, texts, sizeof texts);
        if (status == SIP_UA_NO_ROOM) {
            if (output.kind == SIP_UA_SEND && sends)
                fail(&output);
            must(sip_ua_skip(&agent), "sip_ua_skip");
            continue;
        }
        must(status, "sip_ua_next");
        if (output.kind == SIP_UA_NOTHING)
            return;
        if (sip_ua_is_reflected(&agent, &output, texts))
            continue;
        if (output.kind == SIP_UA_SEND && sends)
            send_output(&output);
        else if (output.kind == SIP_UA_NOTICE_REQUEST)
            respond(&output);
    }
}

static int patience(void)
{
    sip_ua_due due;
    must(sip_ua_next_due(&agent, &due), "sip_ua_next_due");
    uint64_t moment = now();
    if (!due.is_due)
        return -1;
    return due.moment <= moment ? 0 : due.moment - moment > 60000 ? 60000
                                                                 : (int)(due.moment - moment);
}

/* Whether something came or is due. Rounds without a cause would only lengthen the journal. */
static bool has_cause(void)
{
    sip_ua_due due;
    must(sip_ua_next_due(&agent, &due), "sip_ua_next_due");
    return has_events || (due.is_due && due.moment <= now());
}

int main(int count, char **words)
{
    sip_ua_configuration configuration = { 0 };
    struct sockaddr_in local = { .sin_family = AF_INET };
    if (count != 4 || inet_pton(AF_INET, words[1], &local.sin_addr) != 1) {
        fprintf(stderr, "usage: durable IP PORT JOURNAL\n");
        return 2;
    }
    local.sin_port = htons((uint16_t)atoi(words[2]));
    configuration.local.port = ntohs(local.sin_port);
    memcpy(configuration.local.ip, &local.sin_addr, 4);
    udp = socket(AF_INET, SOCK_DGRAM, 0);
    if (udp < 0 || bind(udp, (struct sockaddr *)&local, sizeof local) != 0)
        die("socket", strerror(errno));
    signal(SIGTERM, end);
    if (begin(words[3], &configuration))
        take_outputs(false);
    while (!is_over) {
        struct pollfd waiting = { .fd = udp, .events = POLLIN };
        poll(&waiting, 1, has_events ? 0 : patience());
        receive();
        if (!has_cause())
            continue;
        last_moment = now();
        must(sip_ua_run(&agent, last_moment), "sip_ua_run");
        append_round();
        take_outputs(true);
    }
    must(sip_ua_free(&agent), "sip_ua_free");
    return 0;
}
