/* A registration for programs over sip_ua.h (RFC 3261, section 10): registers a Contact, answers
 * challenges by sip_ua_digest.h, asks for longer after a 423, refreshes the binding by what the
 * registrar granted, tries again after a failure, and unregisters. It is optional, and no part of
 * the library. Link with -lcrypto. For C99 and C++.
 *
 *     sip_ua_registration registration;
 *     memset(&registration, 0, sizeof registration);
 *     registration.registrar_uri = "sip:example.com"; .. and the other fields to set
 *     sip_ua_register(&registration, &agent, moment);
 *
 * In the loop of the host:
 *     after sip_ua_next has given a notice
 *         sip_ua_registration_tell(&registration, &agent, &output, texts, moment);
 *     before a round
 *         sip_ua_registration_wake(&registration, &agent, moment);
 *     wait no longer than until
 *         sip_ua_registration_due(&registration)
 *
 * Each of these calls may give a command, which is an event of the next round. So run one at once
 * if an event waits (sip_ua_stats). */
#ifndef SIP_UA_REGISTRATION_H
#define SIP_UA_REGISTRATION_H

#include "sip_ua_digest.h"

#ifdef __cplusplus
extern "C" {
#endif

enum {
    SIP_UA_UNREGISTERED = 0,
    SIP_UA_REGISTERING = 1,     /* the first REGISTER, or one after a failure, is on its way */
    SIP_UA_REGISTERED = 2,      /* also while a refresh is on its way */
    SIP_UA_UNREGISTERING = 3,
    SIP_UA_NOT_REGISTERED = 4   /* the last REGISTER failed: `status` says why. The next one follows
                                   by itself */
};

/* A binding for longer than LONG is refreshed EARLY before its end, another one after half of its
 * time (3GPP TS 24.229, section 5.1.1.4.1). After a failure the next REGISTER follows after at most
 * RETRY, after each further failure at most twice as long, up to LONGEST_RETRY (RFC 5626,
 * section 4.5). All in s. */
#define SIP_UA_LONG_REGISTRATION 1200
#define SIP_UA_EARLY_REFRESH 600
#define SIP_UA_RETRY 30
#define SIP_UA_LONGEST_RETRY 1800
/* How often one REGISTER is sent again, for challenges and after 423s. */
#define SIP_UA_MOST_TRIES 4
/* The room for a challenge, and for other values of headers. */
#define SIP_UA_VALUE_ROOM 2048
/* The Contact that stands for all bindings of the user (section 10.2.2). */
#define SIP_UA_ALL_CONTACTS "*"

/* The challenge of one status, 401 or 407, for the requests after it. */
typedef struct sip_ua_registrar_challenge {
    uint8_t value[SIP_UA_VALUE_ROOM];
    size_t len; /* 0: none */
    char cnonce[SIP_UA_CNONCE_LEN];
    uint32_t count;   /* of the requests that have used its nonce */
    bool is_answered; /* by the REGISTER that is on its way */
} sip_ua_registrar_challenge;

/* A registration. All bytes are 0 before the fields are set. */
typedef struct sip_ua_registration {
    /* To set before sip_ua_register. The strings end in a zero byte and stay until the end. */
    sip_ua_address registrar;  /* where the requests go */
    const char *registrar_uri; /* as "sip:example.com" */
    const char *user_uri;      /* as "sip:alice@example.com" */
    const char *contact;       /* the URI to bind, as "sip:alice@192.0.2.1:5060" */
    const char *username;
    const char *password;
    uint32_t expires; /* what to ask for, in s */
    /* What it tells. */
    uint32_t state;   /* SIP_UA_REGISTERED .. */
    uint32_t status;  /* of the last final response; 408 after a timeout, 503 if a send failed, 481
                         if the agent refused the request */
    uint32_t granted; /* in s */
    uint32_t results; /* how many REGISTERs have come to an end, whose challenges are answered */
    /* Private. */
    sip_ua_registrar_challenge challenges[2];
    char call_id[SIP_UA_CNONCE_LEN + 1];
    bool is_pending; /* a REGISTER is on its way */
    bool is_removal; /* the REGISTER on its way removes the binding */
    bool is_leaving;
    bool removes_all;
    uint32_t tries;
    uint32_t failures;
    sip_ua_due due;
} sip_ua_registration;

/* ---- private helpers */

/* The credentials for a kept challenge. */
static inline uint32_t sip_ua_raw_answer(const sip_ua_registration *registration,
                                         sip_ua_registrar_challenge *entry, uint8_t *buffer,
                                         size_t room, size_t *len)
{
    sip_ua_challenge challenge;
    sip_ua_proof proof;
    sip_ua_bytes value = { entry->value, entry->len };
    sip_ua_bytes cnonce = { entry->cnonce, sizeof entry->cnonce };
    if (!sip_ua_challenge_read(value, &challenge))
        return SIP_UA_BAD_FIELD;
    proof.username = sip_ua_string(registration->username);
    proof.password = sip_ua_string(registration->password);
    proof.method = sip_ua_string("REGISTER");
    proof.uri = sip_ua_string(registration->registrar_uri);
    proof.cnonce = cnonce;
    proof.count = ++entry->count;
    return sip_ua_credentials(&challenge, &proof, buffer, room, len);
}

/* Asks for a REGISTER with these headers, under a new Call-ID. */
static inline uint32_t sip_ua_raw_ask_register(sip_ua_registration *registration, sip_ua *agent,
                                               const sip_ua_header *headers, size_t count)
{
    sip_ua_plain_fields fields;
    uint32_t status = sip_ua_cnonce(registration->call_id);
    if (status != SIP_UA_OK)
        return status;
    registration->call_id[SIP_UA_CNONCE_LEN] = '\0';
    memset(&fields, 0, sizeof fields);
    fields.call_id = sip_ua_string(registration->call_id);
    fields.address = registration->registrar;
    fields.method = sip_ua_string("REGISTER");
    fields.request_uri = sip_ua_string(registration->registrar_uri);
    fields.from = sip_ua_string(registration->user_uri);
    fields.to = fields.from;
    fields.headers = headers;
    fields.header_count = count;
    status = sip_ua_plain(agent, &fields, NULL);
    registration->is_pending = status == SIP_UA_OK;
    return status;
}

/* Keeps the challenge of a 401 or a 407. False if it can't be answered, or if this REGISTER has
 * answered one, and the nonce wasn't stale: then the password was refused. */
static inline bool sip_ua_raw_keep_challenge(sip_ua_registration *registration, sip_ua *agent,
                                             uint32_t place, uint32_t status)
{
    sip_ua_registrar_challenge *entry = &registration->challenges[status == 407];
    uint8_t value[SIP_UA_VALUE_ROOM];
    sip_ua_challenge challenge;
    if (sip_ua_challenge_at(agent, place, status, &challenge, value, sizeof value) != SIP_UA_OK
        || (entry->is_answered && !challenge.is_stale))
        return false;
    memcpy(entry->value, challenge.value.at, challenge.value.len);
    entry->len = challenge.value.len;
    entry->count = 0;
    entry->is_answered = true;
    return sip_ua_cnonce(entry->cnonce) == SIP_UA_OK;
}

/* The number that a text begins with; false without one. */
static inline bool sip_ua_raw_number(sip_ua_bytes text, uint32_t *number)
{
    const char *at = (const char *)text.at;
    uint32_t read = 0;
    size_t i;
    for (i = 0; i < text.len && at[i] >= '0' && at[i] <= '9'; i++) {
        uint32_t digit = (uint32_t)(at[i] - '0');
        read = read > (UINT32_MAX - digit) / 10 ? UINT32_MAX : 10 * read + digit;
    }
    *number = read;
    return i > 0;
}

/* The number in a header of a datagram; false without one. */
static inline bool sip_ua_raw_number_at(sip_ua *agent, uint32_t place, const char *name,
                                        uint32_t *number)
{
    uint8_t value[SIP_UA_VALUE_ROOM];
    sip_ua_text text;
    sip_ua_bytes read = { value, 0 };
    if (sip_ua_header_value(agent, place, name, strlen(name), 0, &text, value, sizeof value)
        != SIP_UA_OK)
        return false;
    read.len = text.is_there ? text.len : 0;
    return sip_ua_raw_number(read, number);
}

/* Reads one address of a list, with the comma after it: up to a comma outside of quotes and of
 * angle brackets. `parameters` is what follows the URI. */
static inline bool sip_ua_raw_read_address(sip_ua_raw_text *text, sip_ua_bytes *uri,
                                           sip_ua_bytes *parameters)
{
    sip_ua_raw_skip_blanks(text);
    if (text->at == text->end)
        return false;
    const char *begin = text->at, *after = NULL;
    uri->at = begin;
    uri->len = 0;
    while (text->at < text->end && *text->at != ',') {
        if (*text->at == '"') {
            text->at++;
            sip_ua_raw_read_quoted(text);
        } else if (*text->at == '<') {
            uri->at = ++text->at;
            while (text->at < text->end && *text->at != '>')
                text->at++;
            uri->len = (size_t)(text->at - (const char *)uri->at);
            after = text->at;
        } else {
            text->at++;
        }
    }
    if (after == NULL) {
        sip_ua_raw_text whole = { begin, text->at };
        *uri = sip_ua_raw_read_token(&whole, ";");
        after = whole.at;
    }
    parameters->at = after;
    parameters->len = (size_t)(text->at - after);
    if (text->at < text->end)
        text->at++;
    return true;
}

/* The parameter `expires` of a Contact; false without one. */
static inline bool sip_ua_raw_expires_of(sip_ua_bytes parameters, uint32_t *expires)
{
    sip_ua_raw_text text = { (const char *)parameters.at,
                             (const char *)parameters.at + parameters.len };
    while (text.at < text.end) {
        char letter = *text.at++;
        if (letter == '"')
            sip_ua_raw_read_quoted(&text);
        if (letter != ';')
            continue;
        sip_ua_raw_skip_blanks(&text);
        bool is_expires = sip_ua_raw_is_word(sip_ua_raw_read_token(&text, "=;"), "expires");
        sip_ua_raw_skip_blanks(&text);
        if (!is_expires || text.at == text.end || *text.at++ != '=')
            continue;
        sip_ua_raw_skip_blanks(&text);
        if (text.at < text.end && *text.at == '"')
            text.at++;
        sip_ua_bytes rest = { text.at, (size_t)(text.end - text.at) };
        return sip_ua_raw_number(rest, expires);
    }
    return false;
}

/* Whether two URIs are the same but for their parameters. */
static inline bool sip_ua_raw_is_same_uri(sip_ua_bytes uri, const char *other)
{
    const char *at = (const char *)uri.at;
    size_t i;
    for (i = 0; i < uri.len && at[i] != ';' && other[i] != '\0' && other[i] != ';'; i++)
        if (sip_ua_raw_lower(at[i]) != sip_ua_raw_lower(other[i]))
            return false;
    return (i == uri.len || at[i] == ';') && (other[i] == '\0' || other[i] == ';');
}

/* The time in s that a 200 grants: the parameter of the own Contact, else Expires, else what was
 * asked for (RFC 3261, section 10.2.4). */
static inline uint32_t sip_ua_raw_granted(const sip_ua_registration *registration, sip_ua *agent,
                                          uint32_t place)
{
    uint8_t value[SIP_UA_VALUE_ROOM];
    uint32_t granted = 0;
    for (size_t number = 0; number < SIP_UA_MOST_LINES; number++) {
        sip_ua_text text;
        sip_ua_bytes uri, parameters;
        if (sip_ua_header_value(agent, place, "Contact", strlen("Contact"), number, &text, value,
                                sizeof value)
                != SIP_UA_OK
            || !text.is_there)
            break;
        sip_ua_raw_text list = { (const char *)value, (const char *)value + text.len };
        while (sip_ua_raw_read_address(&list, &uri, &parameters))
            if (sip_ua_raw_is_same_uri(uri, registration->contact)
                && sip_ua_raw_expires_of(parameters, &granted))
                return granted;
    }
    return sip_ua_raw_number_at(agent, place, "Expires", &granted) ? granted
                                                                   : registration->expires;
}

static inline void sip_ua_raw_set_due(sip_ua_registration *registration, uint64_t moment,
                                      uint64_t pause)
{
    registration->due.is_due = true;
    registration->due.moment = moment + pause;
}

/* The REGISTER was answered by a 2xx. */
static inline void sip_ua_raw_take_success(sip_ua_registration *registration, sip_ua *agent,
                                           uint32_t place, uint64_t moment)
{
    registration->failures = 0;
    registration->results++;
    if (registration->is_removal) {
        registration->state = SIP_UA_UNREGISTERED;
        registration->granted = 0;
        return;
    }
    uint32_t granted = sip_ua_raw_granted(registration, agent, place);
    registration->state = SIP_UA_REGISTERED;
    registration->granted = granted;
    uint64_t pause = granted > SIP_UA_LONG_REGISTRATION
        ? 1000 * (uint64_t)(granted - SIP_UA_EARLY_REFRESH)
        : 500 * (uint64_t)granted;
    sip_ua_raw_set_due(registration, moment, pause < 1000 ? 1000 : pause);
}

/* The REGISTER failed. The next one waits between half of the pause and all of it. */
static inline void sip_ua_raw_take_failure(sip_ua_registration *registration, uint32_t retry_after,
                                           uint64_t moment)
{
    uint64_t pause = 1000 * SIP_UA_RETRY;
    unsigned char random = 0;
    registration->granted = 0;
    registration->results++;
    registration->state = SIP_UA_NOT_REGISTERED;
    if (registration->is_removal)
        return;
    for (uint32_t i = 0; i < registration->failures && pause < 1000 * SIP_UA_LONGEST_RETRY; i++)
        pause *= 2;
    if (pause > 1000 * SIP_UA_LONGEST_RETRY)
        pause = 1000 * SIP_UA_LONGEST_RETRY;
    registration->failures++;
    RAND_bytes(&random, 1);
    pause -= pause / 2 * random / UINT8_MAX;
    if (pause < 1000 * (uint64_t)retry_after)
        pause = 1000 * (uint64_t)retry_after;
    sip_ua_raw_set_due(registration, moment, pause);
}

/* Asks for a REGISTER with the credentials for the challenges that are kept. */
static inline uint32_t sip_ua_raw_ask_with_credentials(sip_ua_registration *registration,
                                                       sip_ua *agent)
{
    sip_ua_header headers[4];
    uint8_t credentials[2][2 * SIP_UA_VALUE_ROOM];
    char contact[SIP_UA_VALUE_ROOM], expires[16];
    size_t count = 0;
    bool is_star = registration->is_removal && registration->removes_all;
    int len = snprintf(contact, sizeof contact, is_star ? "%s" : "<%s>",
                       is_star ? SIP_UA_ALL_CONTACTS : registration->contact);
    if (len < 0 || (size_t)len >= sizeof contact)
        return SIP_UA_NO_ROOM;
    snprintf(expires, sizeof expires, "%lu",
             registration->is_removal ? 0UL : (unsigned long)registration->expires);
    headers[count].name = sip_ua_string("Contact");
    headers[count++].value = sip_ua_string(contact);
    headers[count].name = sip_ua_string("Expires");
    headers[count++].value = sip_ua_string(expires);
    for (size_t i = 0; i < 2; i++) {
        size_t written;
        if (registration->challenges[i].len == 0)
            continue;
        uint32_t status = sip_ua_raw_answer(registration, &registration->challenges[i],
                                            credentials[i], sizeof credentials[i], &written);
        if (status != SIP_UA_OK)
            return status;
        headers[count].name = sip_ua_string(sip_ua_credentials_name(i == 0 ? 401 : 407));
        headers[count].value.at = credentials[i];
        headers[count++].value.len = written;
    }
    return sip_ua_raw_ask_register(registration, agent, headers, count);
}

/* Sends a REGISTER. If that isn't possible, it has failed. */
static inline uint32_t sip_ua_raw_send_register(sip_ua_registration *registration, sip_ua *agent,
                                                uint64_t moment)
{
    uint32_t status = sip_ua_raw_ask_with_credentials(registration, agent);
    if (status != SIP_UA_OK)
        sip_ua_raw_take_failure(registration, 0, moment);
    return status;
}

/* Begins a REGISTER: its first try. */
static inline uint32_t sip_ua_raw_begin_register(sip_ua_registration *registration, sip_ua *agent,
                                                 uint64_t moment)
{
    registration->tries = 0;
    registration->due.is_due = false;
    registration->is_removal = registration->is_leaving;
    registration->challenges[0].is_answered = false;
    registration->challenges[1].is_answered = false;
    return sip_ua_raw_send_register(registration, agent, moment);
}

/* The status of a final response, or the one that stands for another end of a request (RFC 3261,
 * section 8.1.3.1). */
static inline uint32_t sip_ua_raw_status_of(const sip_ua_typed_output *output)
{
    switch (output->kind) {
    case SIP_UA_NOTICE_RESPONSE: return output->status;
    case SIP_UA_NOTICE_TIMEOUT: return 408;
    case SIP_UA_NOTICE_FAILED: return 503;
    default: return 481;
    }
}

/* How long a response asks to wait, in s. */
static inline uint32_t sip_ua_raw_retry_after(sip_ua *agent, const sip_ua_typed_output *output)
{
    uint32_t wait = 0;
    return output->kind == SIP_UA_NOTICE_RESPONSE
            && sip_ua_raw_number_at(agent, output->place, "Retry-After", &wait)
        ? wait
        : 0;
}

/* Whether to send the REGISTER again: after a challenge, or a 423 with a longer time. */
static inline bool sip_ua_raw_tries_again(sip_ua_registration *registration, sip_ua *agent,
                                          const sip_ua_typed_output *output)
{
    uint32_t shortest = 0;
    if (registration->tries >= SIP_UA_MOST_TRIES)
        return false;
    registration->tries++;
    if (output->status == 401 || output->status == 407)
        return sip_ua_raw_keep_challenge(registration, agent, output->place, output->status);
    if (output->status != 423 || registration->is_removal
        || !sip_ua_raw_number_at(agent, output->place, "Min-Expires", &shortest)
        || shortest <= registration->expires)
        return false;
    registration->expires = shortest;
    return true;
}

/* ---- the registration */

/* Registers, and keeps the binding from then on. Faults: those of sip_ua_plain, SIP_UA_NO_CRYPTO,
 * SIP_UA_NO_ROOM for a Contact of more than SIP_UA_VALUE_ROOM bytes. */
static inline uint32_t sip_ua_register(sip_ua_registration *registration, sip_ua *agent,
                                       uint64_t moment)
{
    if (registration == NULL || agent == NULL || registration->registrar_uri == NULL
        || registration->user_uri == NULL || registration->contact == NULL
        || registration->username == NULL || registration->password == NULL)
        return SIP_UA_NULL;
    registration->is_leaving = false;
    if (registration->is_pending)
        return SIP_UA_OK;
    registration->state = SIP_UA_REGISTERING;
    return sip_ua_raw_begin_register(registration, agent, moment);
}

/* Removes the binding, or all bindings of the user, and ends the registration. If a REGISTER is on
 * its way, this follows its response. Faults: as above. */
static inline uint32_t sip_ua_unregister(sip_ua_registration *registration, sip_ua *agent,
                                         uint64_t moment, bool removes_all)
{
    if (registration == NULL || agent == NULL || registration->contact == NULL)
        return SIP_UA_NULL;
    registration->is_leaving = true;
    registration->removes_all = removes_all;
    registration->state = SIP_UA_UNREGISTERING;
    if (registration->is_pending)
        return SIP_UA_OK;
    return sip_ua_raw_begin_register(registration, agent, moment);
}

/* Takes an output of the last round, whose texts are in the buffer that sip_ua_next wrote. Does
 * nothing with what isn't about this registration. Look at `state` after it. Faults: as above; then
 * the REGISTER has failed. */
static inline uint32_t sip_ua_registration_tell(sip_ua_registration *registration, sip_ua *agent,
                                                const sip_ua_typed_output *output,
                                                const uint8_t *texts, uint64_t moment)
{
    if (registration == NULL || agent == NULL || output == NULL || texts == NULL)
        return SIP_UA_NULL;
    bool is_response = output->kind == SIP_UA_NOTICE_RESPONSE;
    if (!registration->is_pending || output->kind < SIP_UA_NOTICE_REQUEST
        || !sip_ua_is(sip_ua_texts_of(output, texts).call_id, registration->call_id)
        || (is_response && output->status < 200))
        return SIP_UA_OK;
    registration->is_pending = false;
    registration->status = sip_ua_raw_status_of(output);
    if (registration->is_leaving && !registration->is_removal)
        return sip_ua_raw_begin_register(registration, agent, moment);
    if (is_response && sip_ua_raw_tries_again(registration, agent, output))
        return sip_ua_raw_send_register(registration, agent, moment);
    if (is_response && output->status < 300)
        sip_ua_raw_take_success(registration, agent, output->place, moment);
    else
        sip_ua_raw_take_failure(registration, sip_ua_raw_retry_after(agent, output), moment);
    return SIP_UA_OK;
}

/* When sip_ua_registration_wake has something to do, if it has. */
static inline sip_ua_due sip_ua_registration_due(const sip_ua_registration *registration)
{
    return registration->due;
}

/* Refreshes the binding, or tries again after a failure, if it is time to. Faults: as above; then
 * the REGISTER has failed. */
static inline uint32_t sip_ua_registration_wake(sip_ua_registration *registration, sip_ua *agent,
                                                uint64_t moment)
{
    if (registration == NULL || agent == NULL)
        return SIP_UA_NULL;
    if (!registration->due.is_due || moment < registration->due.moment || registration->is_pending
        || registration->is_leaving)
        return SIP_UA_OK;
    if (registration->state == SIP_UA_NOT_REGISTERED)
        registration->state = SIP_UA_REGISTERING;
    return sip_ua_raw_begin_register(registration, agent, moment);
}

#ifdef __cplusplus
}
#endif

#endif
