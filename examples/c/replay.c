/* Replays an event file through the library, and writes its output file: `replay < EVENTS >
 * OUTPUTS`. Both forms are in docs/FORMATS.md. The library reads the lines of events and writes
 * those of notices; the head, the rounds and the sends are this program's. */
#define _POSIX_C_SOURCE 200809L
#include "sip_ua.h"

#include <stdio.h>
#include <stdlib.h>
#include <string.h>

static uint8_t *buffer = NULL;
static size_t room = 0;

static void fail(const char *what, size_t number)
{
    fprintf(stderr, "replay: line %zu: %s\n", number, what);
    exit(1);
}

static bool read_address(const char *text, sip_ua_address *address)
{
    unsigned a, b, c, d, port;
    if (sscanf(text, "%u.%u.%u.%u:%u", &a, &b, &c, &d, &port) != 5)
        return false;
    *address = (sip_ua_address){
        .ip = { (uint8_t)a, (uint8_t)b, (uint8_t)c, (uint8_t)d }, .port = (uint16_t)port
    };
    return a < 256 && b < 256 && c < 256 && d < 256 && port < 65536;
}

static bool read_seed(const char *text, uint8_t seed[32])
{
    for (size_t at = 0; at < 32; at++) {
        unsigned byte;
        if (sscanf(text + 2 * at, "%2x", &byte) != 1)
            return false;
        seed[at] = (uint8_t)byte;
    }
    return strlen(text) == 64;
}

/* The bytes of a send, as a rest. */
static void write_rest(const uint8_t *bytes, size_t len)
{
    for (size_t at = 0; at < len; at++) {
        uint8_t byte = bytes[at];
        if (byte == '\r')
            fputs("\\r", stdout);
        else if (byte == '\n')
            fputs("\\n", stdout);
        else if (byte == '\t')
            fputs("\\t", stdout);
        else if (byte == '\\')
            fputs("\\\\", stdout);
        else if (byte >= ' ' && byte <= '~')
            putchar(byte);
        else
            printf("\\x%02x", byte);
    }
    putchar('\n');
}

/* Makes a buffer of this size, for an output that has no room. */
static void grow(size_t size, size_t number)
{
    free(buffer);
    room = size;
    buffer = malloc(room);
    if (buffer == NULL)
        fail("out of memory", number);
}

static void write_outputs(sip_ua *agent, size_t number)
{
    for (;;) {
        sip_ua_output output;
        uint32_t status = sip_ua_next_line(agent, &output, buffer, room);
        if (status == SIP_UA_NO_ROOM) {
            grow(output.len, number);
            continue;
        }
        if (status != SIP_UA_OK)
            fail("no output", number);
        if (output.kind == SIP_UA_NOTHING)
            return;
        if (output.kind == SIP_UA_SEND) {
            const uint8_t *ip = output.to.ip;
            printf("send %u.%u.%u.%u:%u ", ip[0], ip[1], ip[2], ip[3], output.to.port);
            write_rest(buffer, output.len);
        } else {
            fwrite(buffer, 1, output.len, stdout);
        }
    }
}

static void run(sip_ua *agent, uint64_t moment, size_t number)
{
    uint32_t status = sip_ua_run(agent, moment);
    if (status != SIP_UA_OK)
        fail("the round was refused", number);
    printf("round %llu\n", (unsigned long long)moment);
    write_outputs(agent, number);
}

int main(void)
{
    sip_ua agent = SIP_UA_NONE;
    sip_ua_configuration configuration = { 0 };
    char *line = NULL;
    size_t size = 0, number = 0;
    bool in_round = false;
    uint64_t moment = 0;
    ssize_t read;

    fputs("sip-outputs 1\n", stdout);
    while ((read = getline(&line, &size, stdin)) > 0) {
        size_t len = (size_t)read - 1;
        number++;
        line[len] = '\0';
        if (strncmp(line, "round ", 6) == 0) {
            if (in_round)
                run(&agent, moment, number);
            else if (sip_ua_new(&agent, &configuration, 1) != SIP_UA_OK)
                fail("no agent", number);
            in_round = true;
            moment = strtoull(line + 6, NULL, 10);
        } else if (in_round) {
            uint32_t status = sip_ua_event_line(&agent, line, len);
            if (status != SIP_UA_OK)
                fail("no event", number);
        } else if (strncmp(line, "local ", 6) == 0) {
            if (!read_address(line + 6, &configuration.local))
                fail("no address", number);
        } else if (strncmp(line, "seed ", 5) == 0) {
            if (!read_seed(line + 5, configuration.seed))
                fail("no seed", number);
        } else if (strncmp(line, "first ", 6) == 0) {
            configuration.first = strtoull(line + 6, NULL, 10);
        } else if (strncmp(line, "sip-events ", 11) != 0) {
            fail("no line of an event file", number);
        }
    }
    if (in_round) {
        run(&agent, moment, number);
        sip_ua_free(&agent);
    }
    free(line);
    free(buffer);
    return fflush(stdout) == 0 ? 0 : 1;
}
