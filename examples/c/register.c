/* Registers with a password over UDP, keeps the registration, and unregisters:
 *
 *     register IP PORT REGISTRAR-IP REGISTRAR-PORT NAME DOMAIN PASSWORD EXPIRES SECONDS
 *
 * asks for EXPIRES s, and unregisters after SECONDS. It prints each change. Its status is 0 if it
 * was registered and has unregistered.
 *
 * The registration is that of sip_ua_registration.h, with Digest over OpenSSL:
 *
 *     cc -o register register.c $(pkg-config --cflags --libs sip_ua libcrypto) */
#define _POSIX_C_SOURCE 200809L
#include "sip_ua_registration.h"

#include <arpa/inet.h>
#include <poll.h>
#include <stdio.h>
#include <stdlib.h>
#include <string.h>
#include <sys/random.h>
#include <sys/socket.h>
#include <time.h>
#include <unistd.h>

/* How many datagrams go into one round; others wait in the socket. */
#define MOST_AT_ONCE 512
/* How long the response to the last REGISTER is waited for, in ms. */
#define LEAVE_MS 5000

static uint8_t datagram[65536];
static uint8_t texts[65536];
static sip_ua agent = SIP_UA_NONE;
static sip_ua_registration registration;
static int udp;
static uint64_t moment;
static bool was_registered;

static uint64_t now(void)
{
    struct timespec time;
    clock_gettime(CLOCK_MONOTONIC, &time);
    return (uint64_t)time.tv_sec * 1000 + (uint64_t)time.tv_nsec / 1000000;
}

static void must(uint32_t status, const char *call)
{
    if (status != SIP_UA_OK) {
        fprintf(stderr, "register: %s: %s\n", call, sip_ua_status_text(status));
        exit(1);
    }
}

/* Hands over the datagrams that came. One that a round has no room for is lost, as any datagram may
 * be. */
static void receive(void)
{
    for (int count = 0; count < MOST_AT_ONCE; count++) {
        struct sockaddr_in from;
        socklen_t size = sizeof from;
        ssize_t len = recvfrom(udp, datagram, sizeof datagram, MSG_DONTWAIT,
                               (struct sockaddr *)&from, &size);
        if (len < 0)
            return;
        sip_ua_address source = { { 0, 0, 0, 0 }, ntohs(from.sin_port) };
        memcpy(source.ip, &from.sin_addr, sizeof source.ip);
        uint32_t status = sip_ua_datagram(&agent, &source, datagram, (size_t)len);
        if (status == SIP_UA_TOO_MANY_EVENTS)
            return;
        must(status, "sip_ua_datagram");
    }
}

/* Reports a send that can't go out. If the next round has no room for that, a timer ends it. */
static void fail(const sip_ua_typed_output *output)
{
    uint32_t status = sip_ua_failed(&agent, output->index);
    if (status != SIP_UA_TOO_MANY_EVENTS)
        must(status, "sip_ua_failed");
}

static void send_output(const sip_ua_typed_output *output)
{
    struct sockaddr_in to;
    memset(&to, 0, sizeof to);
    to.sin_family = AF_INET;
    to.sin_port = htons(output->to.port);
    memcpy(&to.sin_addr, output->to.ip, sizeof output->to.ip);
    if (sendto(udp, texts, output->body_len, 0, (struct sockaddr *)&to, sizeof to) < 0)
        fail(output);
}

/* Refuses a request of a peer: this program only registers. */
static void refuse(const sip_ua_typed_output *request)
{
    sip_ua_respond_fields fields;
    memset(&fields, 0, sizeof fields);
    fields.call_id = sip_ua_texts_of(request, texts).call_id;
    fields.id = request->id;
    fields.status = 480;
    fields.reason = sip_ua_string("Temporarily Unavailable");
    must(sip_ua_respond(&agent, &fields, NULL), "sip_ua_respond");
}

/* Prints how the registration stands. */
static void tell_state(void)
{
    if (registration.state == SIP_UA_REGISTERED) {
        was_registered = true;
        printf("registered for %u s\n", (unsigned)registration.granted);
    } else if (registration.state == SIP_UA_NOT_REGISTERED) {
        printf("not registered: %u\n", (unsigned)registration.status);
    } else {
        printf("unregistered\n");
    }
    fflush(stdout);
}

static void tell(const sip_ua_typed_output *output)
{
    uint32_t results = registration.results;
    if (output->kind == SIP_UA_NOTICE_REQUEST)
        refuse(output);
    must(sip_ua_registration_tell(&registration, &agent, output, texts, moment),
         "sip_ua_registration_tell");
    if (registration.results != results)
        tell_state();
}

/* Runs a round and handles its outputs. */
static void run(void)
{
    sip_ua_typed_output output;
    moment = now();
    must(sip_ua_registration_wake(&registration, &agent, moment), "sip_ua_registration_wake");
    must(sip_ua_run(&agent, moment), "sip_ua_run");
    for (;;) {
        uint32_t status = sip_ua_next(&agent, &output, texts, sizeof texts);
        if (status == SIP_UA_NO_ROOM) {
            if (output.kind == SIP_UA_SEND)
                fail(&output);
            must(sip_ua_skip(&agent), "sip_ua_skip");
            continue;
        }
        must(status, "sip_ua_next");
        if (output.kind == SIP_UA_NOTHING)
            return;
        if (sip_ua_is_reflected(&agent, &output, texts))
            continue;
        if (output.kind == SIP_UA_SEND)
            send_output(&output);
        else if (output.kind != SIP_UA_DROP)
            tell(&output);
    }
}

/* How long to wait, in ms: until something is due, at most until `end`; not at all if an event
 * waits. */
static int patience(uint64_t end)
{
    sip_ua_counts counts;
    sip_ua_due dues[2];
    uint64_t time = now(), until = end;
    must(sip_ua_stats(&agent, &counts), "sip_ua_stats");
    must(sip_ua_next_due(&agent, &dues[0]), "sip_ua_next_due");
    dues[1] = sip_ua_registration_due(&registration);
    for (int i = 0; i < 2; i++)
        if (dues[i].is_due && dues[i].moment < until)
            until = dues[i].moment;
    return counts.events > 0 || until <= time ? 0 : (int)(until - time);
}

static bool read_address(const char *ip, const char *port, struct sockaddr_in *address)
{
    memset(address, 0, sizeof *address);
    address->sin_family = AF_INET;
    address->sin_port = htons((uint16_t)atoi(port));
    return inet_pton(AF_INET, ip, &address->sin_addr) == 1;
}

static sip_ua_address address_of(const struct sockaddr_in *address)
{
    sip_ua_address told = { { 0, 0, 0, 0 }, ntohs(address->sin_port) };
    memcpy(told.ip, &address->sin_addr, sizeof told.ip);
    return told;
}

/* Opens the socket and the agent. */
static bool begin(const struct sockaddr_in *local)
{
    sip_ua_configuration configuration;
    memset(&configuration, 0, sizeof configuration);
    configuration.local = address_of(local);
    udp = socket(AF_INET, SOCK_DGRAM, 0);
    if (udp < 0 || bind(udp, (const struct sockaddr *)local, sizeof *local) != 0
        || getrandom(configuration.seed, sizeof configuration.seed, 0) < 0) {
        perror("register");
        return false;
    }
    must(sip_ua_new(&agent, &configuration, 1), "sip_ua_new");
    return true;
}

int main(int count, char **words)
{
    static char registrar_uri[256], user_uri[256], contact[256];
    struct sockaddr_in local, registrar;
    if (count != 10 || !read_address(words[1], words[2], &local)
        || !read_address(words[3], words[4], &registrar)) {
        fprintf(stderr, "usage: register IP PORT REGISTRAR-IP REGISTRAR-PORT NAME DOMAIN PASSWORD"
                        " EXPIRES SECONDS\n");
        return 2;
    }
    if (!begin(&local))
        return 1;
    snprintf(registrar_uri, sizeof registrar_uri, "sip:%s", words[6]);
    snprintf(user_uri, sizeof user_uri, "sip:%s@%s", words[5], words[6]);
    snprintf(contact, sizeof contact, "sip:%s@%s:%s", words[5], words[1], words[2]);
    registration.registrar = address_of(&registrar);
    registration.registrar_uri = registrar_uri;
    registration.user_uri = user_uri;
    registration.contact = contact;
    registration.username = words[5];
    registration.password = words[7];
    registration.expires = (uint32_t)strtoul(words[8], NULL, 10);
    uint64_t end = now() + 1000 * strtoull(words[9], NULL, 10);
    must(sip_ua_register(&registration, &agent, now()), "sip_ua_register");
    bool is_leaving = false;
    while (!is_leaving || (registration.state == SIP_UA_UNREGISTERING && now() < end)) {
        struct pollfd waiting = { udp, POLLIN, 0 };
        poll(&waiting, 1, patience(end));
        receive();
        if (!is_leaving && now() >= end) {
            is_leaving = true;
            end = now() + LEAVE_MS;
            must(sip_ua_unregister(&registration, &agent, now(), false), "sip_ua_unregister");
        }
        run();
    }
    must(sip_ua_free(&agent), "sip_ua_free");
    close(udp);
    return was_registered && registration.state == SIP_UA_UNREGISTERED ? 0 : 1;
}
