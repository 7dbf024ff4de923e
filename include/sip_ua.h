/* A SIP user agent core (RFC 3261, with reliable provisional responses) for programs that have a
 * socket, a clock and a user. The library has no thread, no socket, no clock and no global state.
 * You give it datagrams, commands and times. It returns datagrams to send, and notices.
 *
 * The life of an agent:
 *
 *     sip_ua agent = SIP_UA_NONE;
 *     sip_ua_new(&agent, &configuration, 1);
 *     for (;;) {
 *         .. wait for a datagram, a command of the user, or the time of sip_ua_next_due
 *         sip_ua_datagram(..), sip_ua_invite(..), sip_ua_respond(..) .. sip_ua_failed(..)
 *         sip_ua_run(&agent, moment);
 *         for (;;) {
 *             uint32_t status = sip_ua_next(&agent, &output, buffer, room);
 *             if (status == SIP_UA_NO_ROOM) {
 *                 if (output.kind == SIP_UA_SEND)
 *                     sip_ua_failed(&agent, output.index);
 *                 sip_ua_skip(&agent);
 *             } else if (status != SIP_UA_OK || output.kind == SIP_UA_NOTHING) {
 *                 break;
 *             } else {
 *                 .. send the datagram, or handle the notice. If the send fails: sip_ua_failed
 *             }
 *         }
 *     }
 *     sip_ua_free(&agent);
 *
 * Memory. The program owns each `sip_ua`: on the stack, in a struct or on the heap. All its bytes
 * are 0 before its first use. The library allocates what the agent holds by malloc, and
 * sip_ua_free frees it. No call keeps a pointer that it is given: it copies the bytes. The program
 * owns the buffers. The library writes at most `room` bytes to a buffer, and only whole texts.
 *
 * Room. If a text is longer than `room`, the call returns SIP_UA_NO_ROOM: it fills in the struct
 * with its lengths, writes nothing to the buffer, and the output stays. Make the call again with a
 * larger buffer, or skip the output with sip_ua_skip. A response can be longer than its request,
 * since each Via gets a line of its own, so a peer can cause one that is too long for UDP, which
 * carries at most SIP_UA_LARGEST_DATAGRAM bytes. Report such a send with sip_ua_failed, as any that
 * failed. To ask for lengths first, give a `room` of 0; the buffer may then be NULL.
 *
 * Threads. One thread at a time uses an agent; several threads can use different agents. No call
 * blocks. Make no call from a signal handler, or in the forked child of a process with threads.
 *
 * Moments are times in ms from any starting point, up to 2^62. They never go back. Ports and
 * numbers are in host byte order. Addresses are four bytes: 192.0.2.1 is { 192, 0, 2, 1 }.
 *
 * Link libsip_ua.a or libsip_ua.so, as installed, and no other library. From the build, link
 * libsip_c.a and the toolchain's liblibc_c.a.
 *
 * What the program must ensure, since the library can't check it:
 * - It doesn't copy a `sip_ua`, write to it, or put it into a union. The bytes of a `sip_ua` are 0
 *   before sip_ua_new.
 * - Each pointer is NULL, or points to as much memory as the call says.
 * - It makes one call at a time on one agent.
 * - It frees each agent with sip_ua_free; otherwise its memory is lost.
 * - malloc, realloc and free are of one allocator, which aligns blocks of 16 bytes and more to 16.
 */
#ifndef SIP_UA_H
#define SIP_UA_H

#include <stdbool.h>
#include <stddef.h>
#include <stdint.h>
#include <string.h>

#ifdef __cplusplus
extern "C" {
#endif

/* The version. Before 1.0, a new minor number can need changes in a program: CHANGELOG.md says
 * which. */
#define SIP_UA_VERSION_MAJOR 0
#define SIP_UA_VERSION_MINOR 4
#define SIP_UA_VERSION_PATCH 0
#define SIP_UA_VERSION "0.4.0"

/* An agent, or none. Its fields are private. */
typedef struct sip_ua {
    bool held;
    void *at;
} sip_ua;

#define SIP_UA_NONE { false, NULL }

/* An IPv4 address and a port. */
typedef struct sip_ua_address {
    uint8_t ip[4];
    uint16_t port;
} sip_ua_address;

/* How an agent is set up.
 * - `local` is the address that Via and Contact say: usually that of the socket, behind a NAT the
 *   one at which peers reach it.
 * - `seed` is a secret of 32 random bytes, different for each agent. Tags and branches are made
 *   from it.
 * - `first` is the number of the first round, at most 2^62, usually 0. */
typedef struct sip_ua_configuration {
    sip_ua_address local;
    uint8_t seed[32];
    uint64_t first;
} sip_ua_configuration;

/* The id of an event. In lines it is written `round.place`. */
typedef struct sip_ua_id {
    bool is_given; /* false only where there is no id */
    uint32_t place;
    uint64_t round;
} sip_ua_id;

/* A text, not terminated by a zero byte, or a body. If `len` is 0, `at` may be NULL. */
typedef struct sip_ua_bytes {
    const void *at;
    size_t len;
} sip_ua_bytes;

/* The most bytes that a UDP datagram carries over IPv4. */
#define SIP_UA_LARGEST_DATAGRAM 65507

/* An output.
 * - `to` is the address to send to, only of a send.
 * - `place` is that of the event that caused the output, from 1 in the order in which the events
 *   were given. It is 0 if a timer caused it, or if it is a new request (not ACK) or response (not
 *   100).
 * - `index` counts the outputs of a round from 0.
 * - `len` is the length of its text in bytes. */
typedef struct sip_ua_output {
    uint32_t kind;
    sip_ua_address to;
    uint32_t place;
    size_t index;
    size_t len;
} sip_ua_output;

enum {
    SIP_UA_NOTHING = 0, /* no output is left */
    SIP_UA_SEND = 1,    /* the text is a datagram for the address `to` */
    SIP_UA_LINE = 2     /* the text is a line: a notice, or a drop with its reason */
};

/* An output by its fields. The fields that `sip_ua_output` also has are the same here. A field that
 * the output doesn't have is 0. The texts follow each other in the buffer, in the order of the
 * fields `.._len` here; `sip_ua_texts_of` finds them. */
typedef struct sip_ua_typed_output {
    uint32_t kind;
    sip_ua_address to;
    uint32_t place;
    size_t index;
    sip_ua_id id;     /* of a notice: the request that it is about */
    uint32_t status;  /* of a response */
    uint32_t rseq;    /* of a PRACK: the provisional response that it acknowledges. A response was
                       * reliable if sip_ua_header_values gives it a value of RSeq */
    /* of a refusal: the place of the command or response; its id is this place with next_round - 1,
     * next_round being that of sip_ua_stats */
    uint32_t command;
    uint32_t refusal; /* of a refusal: SIP_UA_REFUSAL_.. */
    uint32_t reason;  /* of a drop: SIP_UA_DROP_.. */
    uint32_t header;  /* of a drop: the missing or repeated header, for sip_ua_header_text */
    size_t call_id_len;
    size_t local_tag_len;
    size_t remote_tag_len;
    size_t method_len;
    size_t body_len; /* of a send: that of the datagram */
} sip_ua_typed_output;

/* The texts of an output, in the buffer to which they were written. */
typedef struct sip_ua_texts {
    sip_ua_bytes call_id;
    sip_ua_bytes local_tag;
    sip_ua_bytes remote_tag;
    sip_ua_bytes method;
    sip_ua_bytes body;
} sip_ua_texts;

/* The kinds of output that sip_ua_next gives, besides SIP_UA_NOTHING and SIP_UA_SEND. Each means
 * what the line of the same name means in docs/FORMATS.md. */
enum {
    SIP_UA_DROP = 3,              /* the datagram of `place` was dropped */
    SIP_UA_NOTICE_REQUEST = 4,    /* a request to answer: method, local tag, remote tag, body */
    SIP_UA_NOTICE_RESPONSE = 5,   /* status (also 100), local tag, remote tag, body; the reason
                                     phrase by sip_ua_start_line; reliable if it has an RSeq. Tags
                                     have the spelling of the message: compare them without case.
                                     The id is that of your command; for a PRACK that went out by
                                     itself, that of the response that it acknowledges. The end of
                                     a dialog that it causes follows */
    SIP_UA_NOTICE_ACK = 6,        /* the ACK of a 2xx: body */
    SIP_UA_NOTICE_PRACK = 7,      /* rseq, body */
    SIP_UA_NOTICE_TIMEOUT = 8,    /* no response to INVITE, no final one to others, or no ACK of
                                     a rejection, came in time */
    SIP_UA_NOTICE_FAILED = 9,     /* a send failed */
    SIP_UA_NOTICE_NO_ACK = 10,    /* no ACK of a 2xx came in time */
    SIP_UA_NOTICE_NO_PRACK = 11,  /* no PRACK came in time */
    SIP_UA_NOTICE_CANCEL = 12,    /* the peer cancelled the INVITE; the agent sent 487. The end of
                                     its early dialog follows */
    SIP_UA_NOTICE_ENDED = 13,     /* a dialog ended: local tag, remote tag */
    SIP_UA_NOTICE_REFUSED = 14    /* a command was refused: command, refusal */
};

/* Why a command was refused. */
enum {
    /* generated from bindings/commands.tsv: begin refusals */
    SIP_UA_REFUSAL_CALL_IN_USE = 1,       /* the Call-ID is in use */
    SIP_UA_REFUSAL_NO_SUCH_CALL = 2,      /* no such call */
    SIP_UA_REFUSAL_NO_SUCH_DIALOG = 3,    /* no such dialog */
    SIP_UA_REFUSAL_NO_SUCH_REQUEST = 4,   /* no such request */
    SIP_UA_REFUSAL_ALREADY_FINAL = 5,     /* the request already has a final response */
    SIP_UA_REFUSAL_BAD_STATUS = 6,        /* the status isn't 101 to 699 */
    SIP_UA_REFUSAL_RELIABLE_PENDING = 7,  /* a reliable response while the first one waits for its
                                             PRACK, while eight wait, or, once one was given up,
                                             until none waits; a 2xx while one with a body waits */
    SIP_UA_REFUSAL_NOT_SUPPORTED = 8,     /* a reliable response that isn't 101 to 199, isn't to an
                                             INVITE, or whose INVITE doesn't have 100rel */
    SIP_UA_REFUSAL_NOTHING_TO_ACK = 9,    /* no 2xx needs an ACK */
    SIP_UA_REFUSAL_NOTHING_TO_PRACK = 10, /* no response needs a PRACK */
    SIP_UA_REFUSAL_SEQUENCE_USED_UP = 11, /* the CSeq or RSeq numbers are used up */
    SIP_UA_REFUSAL_STRICT_ROUTE = 12,     /* the first route is a strict router */
    SIP_UA_REFUSAL_DIALOG_ENDED = 13,     /* the dialog has ended */
    SIP_UA_REFUSAL_BAD_METHOD = 14        /* `request` and `plain` send no ACK, PRACK and CANCEL,
                                             `plain` no INVITE and BYE, `request` in an early dialog
                                             no INVITE and, as callee, no BYE */
    /* generated from bindings/commands.tsv: end */
};

/* Why a datagram was dropped. */
enum {
    SIP_UA_DROP_NOT_OURS = 1,
    SIP_UA_DROP_NO_TRANSACTION = 2,
    SIP_UA_DROP_TOO_LONG = 3,
    SIP_UA_DROP_NO_EMPTY_LINE = 4,
    SIP_UA_DROP_BAD_START_LINE = 5,
    SIP_UA_DROP_BAD_HEADER = 6,
    SIP_UA_DROP_MISSING = 7,
    SIP_UA_DROP_REPEATED = 8,
    SIP_UA_DROP_BAD_NUMBER = 9,
    SIP_UA_DROP_OLD_BRANCH = 10,
    SIP_UA_DROP_METHOD_MISMATCH = 11,
    SIP_UA_DROP_TRUNCATED = 12,
    SIP_UA_DROP_NO_MEMORY = 13
};

/* Counts of an agent: the transactions and calls that have begun and not ended, the number of the
 * next round, the events that wait for it, and the outputs of the last round that weren't taken. */
typedef struct sip_ua_counts {
    uint64_t transactions;
    uint64_t calls;
    uint64_t next_round;
    size_t events;
    size_t outputs;
} sip_ua_counts;

typedef struct sip_ua_due {
    bool is_due;
    uint64_t moment;
} sip_ua_due;

/* A header of a command: its name, long or compact, in any case, and its value. */
typedef struct sip_ua_header {
    sip_ua_bytes name;
    sip_ua_bytes value;
} sip_ua_header;

/* The id of a command's event. After SIP_UA_BAD_FIELD, the bad field: SIP_UA_FIELD_.. */
typedef struct sip_ua_asked {
    sip_ua_id id;
    uint32_t bad_field;
} sip_ua_asked;

/* The fields of a command that can be bad, and when they are. */
enum {
    /* generated from bindings/commands.tsv: begin bad-fields */
    SIP_UA_FIELD_CALL_ID = 1,     /* empty, or with a space, a tab or a line end */
    SIP_UA_FIELD_METHOD = 2,      /* not a token */
    SIP_UA_FIELD_REQUEST_URI = 3, /* empty, without a scheme, or with a space, a tab, a line end,
                                     `<`, `>` or `"` */
    SIP_UA_FIELD_FROM = 4,        /* the same */
    SIP_UA_FIELD_TO = 5,          /* the same */
    SIP_UA_FIELD_LOCAL_TAG = 6,   /* neither empty nor a token */
    SIP_UA_FIELD_REMOTE_TAG = 7,  /* the same */
    SIP_UA_FIELD_STATUS = 8,      /* not 101 to 699 */
    SIP_UA_FIELD_REASON = 9,      /* with a line end */
    SIP_UA_FIELD_HEADERS = 10     /* a header that a user can't give, a value that doesn't have its
                                     header's form, a Route for a command that takes none, or any
                                     header of a cancel */
    /* generated from bindings/commands.tsv: end */
};

/* generated from bindings/commands.tsv: begin fields */
/* The fields of commands. The URIs have no tags and display names. The tags are those of the
 * notices; an absent tag is empty. The status is 101 to 699. `requires_100rel` overrides
 * `supports_100rel`. A body may be empty. It is application/sdp, unless a header Content-Type says
 * otherwise. Headers are pairs of a name and a value. */

typedef struct sip_ua_invite_fields {
    sip_ua_bytes call_id;
    sip_ua_address address;
    sip_ua_bytes request_uri;
    sip_ua_bytes from;
    sip_ua_bytes to;
    bool supports_100rel;
    bool requires_100rel;
    sip_ua_bytes body;
    const sip_ua_header *headers;
    size_t header_count;
} sip_ua_invite_fields;

typedef struct sip_ua_plain_fields {
    sip_ua_bytes call_id;
    sip_ua_address address;
    sip_ua_bytes method;
    sip_ua_bytes request_uri;
    sip_ua_bytes from;
    sip_ua_bytes to;
    sip_ua_bytes body;
    const sip_ua_header *headers;
    size_t header_count;
} sip_ua_plain_fields;

typedef struct sip_ua_request_fields {
    sip_ua_bytes call_id;
    sip_ua_bytes local_tag;
    sip_ua_bytes remote_tag;
    sip_ua_bytes method;
    sip_ua_bytes body;
    const sip_ua_header *headers;
    size_t header_count;
} sip_ua_request_fields;

typedef struct sip_ua_respond_fields {
    sip_ua_bytes call_id;
    sip_ua_id id;
    uint16_t status;
    bool is_reliable;
    sip_ua_bytes reason;
    sip_ua_bytes body;
    const sip_ua_header *headers;
    size_t header_count;
} sip_ua_respond_fields;

/* Of ack and prack. */
typedef struct sip_ua_body_fields {
    sip_ua_bytes call_id;
    sip_ua_bytes local_tag;
    sip_ua_bytes remote_tag;
    sip_ua_bytes body;
    const sip_ua_header *headers;
    size_t header_count;
} sip_ua_body_fields;

typedef struct sip_ua_cancel_fields {
    sip_ua_bytes call_id;
    sip_ua_id id;
} sip_ua_cancel_fields;

typedef struct sip_ua_abandon_request_fields {
    sip_ua_bytes call_id;
    sip_ua_id id;
} sip_ua_abandon_request_fields;

typedef struct sip_ua_abandon_dialog_fields {
    sip_ua_bytes call_id;
    sip_ua_bytes local_tag;
    sip_ua_bytes remote_tag;
} sip_ua_abandon_dialog_fields;
/* generated from bindings/commands.tsv: end */

/* What a request says of itself, and its notice doesn't, or none. */
typedef struct sip_ua_request_traits {
    bool is_there;
    bool is_in_dialog;     /* its To has a tag: an INVITE is a re-INVITE */
    bool supports_100rel;  /* a provisional response may be reliable */
    bool requires_100rel;  /* each provisional response, but 100, is sent reliably */
} sip_ua_request_traits;

/* An address in the value of a header, or none. Its texts stand one after another: the display text
 * as it is written, with its quotes, the URI, and the value of the parameter that was asked for. */
typedef struct sip_ua_address_lengths {
    bool is_there;
    bool has_parameter;
    size_t display_len;
    size_t uri_len;
    size_t value_len;
} sip_ua_address_lengths;

/* A datagram that was received, or none. */
typedef struct sip_ua_arrival {
    bool is_there;
    sip_ua_address from;
    size_t len;
} sip_ua_arrival;

/* A text, or none. */
typedef struct sip_ua_text {
    bool is_there;
    size_t len;
} sip_ua_text;

/* What sip_ua_resume did: how many bytes of the text it took; or, after SIP_UA_BAD_LINE, the number
 * of the bad line from 1, or 0 if the text is empty or its first round too long. */
typedef struct sip_ua_resumed {
    size_t len;
    uint64_t bad_line;
} sip_ua_resumed;

/* A header line, or none. */
typedef struct sip_ua_header_lengths {
    bool is_there;
    size_t name_len;
    size_t len;
} sip_ua_header_lengths;

/* A start line. A response has `status`, a request `method_len`. `len` is the length of the
 * Request-URI or of the reason phrase. */
typedef struct sip_ua_start {
    uint32_t kind;
    uint32_t status;
    size_t method_len;
    size_t len;
} sip_ua_start;

enum {
    SIP_UA_NO_START = 0, /* no datagram has this place, or its first line isn't a start line */
    SIP_UA_REQUEST = 1,  /* the text is the method and, directly after it, the Request-URI */
    SIP_UA_RESPONSE = 2  /* the text is the reason phrase */
};

/* The statuses that calls return. The agent changes only with SIP_UA_OK or SIP_UA_BROKEN. */
enum {
    SIP_UA_OK = 0,
    SIP_UA_NO_AGENT = 1,          /* there is no agent: before sip_ua_new, or after sip_ua_free */
    SIP_UA_AGENT_EXISTS = 2,      /* sip_ua_new for an agent that wasn't freed */
    SIP_UA_BAD_LINE = 3,          /* not the line of an event */
    SIP_UA_TOO_MANY_EVENTS = 4,   /* 65,536 events wait for the next round */
    SIP_UA_NO_SEND = 5,           /* that output of the last round isn't a send */
    SIP_UA_OUTPUTS_LEFT = 6,      /* not all outputs of the last round were taken */
    SIP_UA_BACKWARDS = 7,         /* the moment is earlier than that of the last round */
    SIP_UA_MOMENT_TOO_LARGE = 8,  /* the moment is above 2^62 */
    SIP_UA_USED_UP = 9,           /* the number of the round would be above 2^62 */
    SIP_UA_NO_MEMORY = 10,        /* malloc returned NULL; the call can be made again */
    SIP_UA_BROKEN = 11,           /* malloc returned NULL within a round: the agent holds nothing
                                     any more, and can only be freed */
    SIP_UA_BAD_CONFIGURATION = 12, /* not 1 to 256 shards, or a first round above 2^62 */
    SIP_UA_NULL = 13,             /* a pointer was NULL */
    SIP_UA_BAD_FIELD = 14,        /* a field of a command is bad */
    SIP_UA_NO_ROOM = 15,          /* the text is longer than the buffer: nothing was written, and an
                                     output stays. The lengths say how much room it needs */
    SIP_UA_BUSY = 16              /* sip_ua_resume while events wait or outputs are left */
};

/* The names of version 0.3. The next version won't have them. */
#define SIP_UA_NOT_HELD SIP_UA_NO_AGENT
#define SIP_UA_HELD SIP_UA_AGENT_EXISTS
#define SIP_UA_TOO_LARGE SIP_UA_MOMENT_TOO_LARGE
#define sip_ua_next_output sip_ua_next_line

/* What a status means, in English. Never NULL. */
static inline const char *sip_ua_status_text(uint32_t status)
{
    switch (status) {
    case SIP_UA_OK: return "success";
    case SIP_UA_NO_AGENT: return "there is no agent";
    case SIP_UA_AGENT_EXISTS: return "there is an agent already";
    case SIP_UA_BAD_LINE: return "not the line of an event";
    case SIP_UA_TOO_MANY_EVENTS: return "too many events for one round";
    case SIP_UA_NO_SEND: return "that output isn't a send";
    case SIP_UA_OUTPUTS_LEFT: return "not all outputs of the last round were taken";
    case SIP_UA_BACKWARDS: return "the moment is earlier than that of the last round";
    case SIP_UA_MOMENT_TOO_LARGE: return "the moment is too large";
    case SIP_UA_USED_UP: return "the round numbers are used up";
    case SIP_UA_NO_MEMORY: return "out of memory";
    case SIP_UA_BROKEN: return "out of memory within a round; the agent holds nothing";
    case SIP_UA_BAD_CONFIGURATION: return "not 1 to 256 shards, or a first round that is too large";
    case SIP_UA_NULL: return "a pointer is NULL";
    case SIP_UA_BAD_FIELD: return "a field of the command is bad";
    case SIP_UA_NO_ROOM: return "the text is longer than the buffer";
    case SIP_UA_BUSY: return "events wait, or outputs of the last round are left";
    default: return "unknown status";
    }
}

/* The name of a bad field, by its number. Never NULL. */
static inline const char *sip_ua_field_text(uint32_t field)
{
    switch (field) {
    /* generated from bindings/commands.tsv: begin field-texts */
    case 1: return "call_id";
    case 2: return "method";
    case 3: return "request_uri";
    case 4: return "from";
    case 5: return "to";
    case 6: return "local_tag";
    case 7: return "remote_tag";
    case 8: return "status";
    case 9: return "reason";
    case 10: return "headers";
    /* generated from bindings/commands.tsv: end */
    default: return "unknown field";
    }
}

/* Why a command was refused, by the number in the notice, in English. Never NULL. */
static inline const char *sip_ua_refusal_text(uint32_t number)
{
    switch (number) {
    /* generated from bindings/commands.tsv: begin texts */
    case 1: return "the Call-ID is in use";
    case 2: return "no such call";
    case 3: return "no such dialog";
    case 4: return "no such request";
    case 5: return "the request already has a final response";
    case 6: return "the status isn't 101 to 699";
    case 7: return "a PRACK is missing";
    case 8: return "the response can't be reliable";
    case 9: return "no 2xx needs an ACK";
    case 10: return "no response needs a PRACK";
    case 11: return "the CSeq or RSeq numbers are used up";
    case 12: return "the first route is a strict router";
    case 13: return "the dialog has ended";
    case 14: return "this command can't send this method, or not in an early dialog";
    /* generated from bindings/commands.tsv: end */
    default: return "unknown reason";
    }
}

/* Why a datagram was dropped, in English. Never NULL. */
static inline const char *sip_ua_drop_text(uint32_t reason)
{
    switch (reason) {
    case SIP_UA_DROP_NOT_OURS: return "a response to another sender";
    case SIP_UA_DROP_NO_TRANSACTION: return "a response that no transaction waits for";
    case SIP_UA_DROP_TOO_LONG: return "more than 65,535 bytes";
    case SIP_UA_DROP_NO_EMPTY_LINE: return "no empty line ends the headers";
    case SIP_UA_DROP_BAD_START_LINE: return "neither a request line nor a status line";
    case SIP_UA_DROP_BAD_HEADER: return "a malformed header line";
    case SIP_UA_DROP_MISSING: return "a header is missing";
    case SIP_UA_DROP_REPEATED: return "a header is repeated";
    case SIP_UA_DROP_BAD_NUMBER: return "a malformed number, or one that is too large";
    case SIP_UA_DROP_OLD_BRANCH: return "a branch that doesn't begin with z9hG4bK";
    case SIP_UA_DROP_METHOD_MISMATCH: return "the CSeq has another method";
    case SIP_UA_DROP_TRUNCATED: return "shorter than its Content-Length";
    case SIP_UA_DROP_NO_MEMORY: return "out of memory";
    default: return "unknown reason";
    }
}

/* The name of the header that is missing or repeated. Never NULL. */
static inline const char *sip_ua_header_text(uint32_t header)
{
    static const char *const names[] = { "", "Via", "From", "To", "Call-ID", "CSeq", "Max-Forwards",
                                         "Content-Length", "RSeq", "RAck", "Contact",
                                         "Record-Route", "Route", "Require", "Supported" };
    return names[header < sizeof names / sizeof *names ? header : 0];
}

/* The functions of the library. They don't test pointers: call those below instead. */
uint32_t sip_ua_raw_new(sip_ua *agent, const sip_ua_configuration *configuration, size_t shards);
uint32_t sip_ua_raw_datagram(sip_ua *agent, const sip_ua_address *from, const uint8_t *bytes,
                             size_t len);
uint32_t sip_ua_raw_event_line(sip_ua *agent, const uint8_t *line, size_t len);
uint32_t sip_ua_raw_event_lines(sip_ua *agent, const uint8_t *lines, size_t len);
uint32_t sip_ua_raw_header(sip_ua *agent, const uint8_t *name, size_t name_len,
                           const uint8_t *value, size_t value_len);
/* generated from bindings/commands.tsv: begin library */
uint32_t sip_ua_raw_invite(sip_ua *agent, const uint8_t *call_id, size_t call_id_len,
                           const sip_ua_address *address, const uint8_t *request_uri,
                           size_t request_uri_len, const uint8_t *from, size_t from_len,
                           const uint8_t *to, size_t to_len, bool supports_100rel,
                           bool requires_100rel, const uint8_t *body, size_t body_len,
                           sip_ua_asked *asked);
uint32_t sip_ua_raw_plain(sip_ua *agent, const uint8_t *call_id, size_t call_id_len,
                          const sip_ua_address *address, const uint8_t *method, size_t method_len,
                          const uint8_t *request_uri, size_t request_uri_len, const uint8_t *from,
                          size_t from_len, const uint8_t *to, size_t to_len, const uint8_t *body,
                          size_t body_len, sip_ua_asked *asked);
uint32_t sip_ua_raw_request(sip_ua *agent, const uint8_t *call_id, size_t call_id_len,
                            const uint8_t *local_tag, size_t local_tag_len,
                            const uint8_t *remote_tag, size_t remote_tag_len, const uint8_t *method,
                            size_t method_len, const uint8_t *body, size_t body_len,
                            sip_ua_asked *asked);
uint32_t sip_ua_raw_respond(sip_ua *agent, const uint8_t *call_id, size_t call_id_len,
                            uint64_t round, uint32_t place, uint16_t status, bool is_reliable,
                            const uint8_t *reason, size_t reason_len, const uint8_t *body,
                            size_t body_len, sip_ua_asked *asked);
uint32_t sip_ua_raw_ack(sip_ua *agent, const uint8_t *call_id, size_t call_id_len,
                        const uint8_t *local_tag, size_t local_tag_len, const uint8_t *remote_tag,
                        size_t remote_tag_len, const uint8_t *body, size_t body_len,
                        sip_ua_asked *asked);
uint32_t sip_ua_raw_prack(sip_ua *agent, const uint8_t *call_id, size_t call_id_len,
                          const uint8_t *local_tag, size_t local_tag_len, const uint8_t *remote_tag,
                          size_t remote_tag_len, const uint8_t *body, size_t body_len,
                          sip_ua_asked *asked);
uint32_t sip_ua_raw_cancel(sip_ua *agent, const uint8_t *call_id, size_t call_id_len,
                           uint64_t round, uint32_t place, sip_ua_asked *asked);
uint32_t sip_ua_raw_abandon_request(sip_ua *agent, const uint8_t *call_id, size_t call_id_len,
                                    uint64_t round, uint32_t place, sip_ua_asked *asked);
uint32_t sip_ua_raw_abandon_dialog(sip_ua *agent, const uint8_t *call_id, size_t call_id_len,
                                   const uint8_t *local_tag, size_t local_tag_len,
                                   const uint8_t *remote_tag, size_t remote_tag_len,
                                   sip_ua_asked *asked);
/* generated from bindings/commands.tsv: end */
uint32_t sip_ua_raw_failed(sip_ua *agent, size_t output);
uint32_t sip_ua_raw_run(sip_ua *agent, uint64_t moment);
uint32_t sip_ua_raw_next_output(sip_ua *agent, sip_ua_output *output, uint8_t *buffer, size_t room);
uint32_t sip_ua_raw_next(sip_ua *agent, sip_ua_typed_output *output, uint8_t *buffer, size_t room);
uint32_t sip_ua_raw_skip(sip_ua *agent);
uint32_t sip_ua_raw_stats(sip_ua *agent, sip_ua_counts *counts);
uint32_t sip_ua_raw_next_due(sip_ua *agent, sip_ua_due *due);
uint32_t sip_ua_raw_last_id(sip_ua *agent, sip_ua_id *id);
uint32_t sip_ua_raw_opening_tag(sip_ua *agent, uint64_t round, uint32_t place, size_t *len,
                                uint8_t *buffer, size_t room);
uint32_t sip_ua_raw_would_begin(sip_ua *agent, const uint8_t *bytes, size_t len, bool *begins);
uint32_t sip_ua_raw_datagram_at(sip_ua *agent, uint32_t place, sip_ua_arrival *arrival,
                                uint8_t *buffer, size_t room);
uint32_t sip_ua_raw_request_traits(sip_ua *agent, uint32_t place, sip_ua_request_traits *traits);
uint32_t sip_ua_raw_address(const uint8_t *value, size_t value_len, size_t number,
                            const uint8_t *parameter, size_t parameter_len,
                            sip_ua_address_lengths *lengths, uint8_t *buffer, size_t room);
uint32_t sip_ua_raw_party(const uint8_t *value, size_t value_len, const uint8_t *parameter,
                          size_t parameter_len, sip_ua_address_lengths *lengths, uint8_t *buffer,
                          size_t room);
uint32_t sip_ua_raw_start_line(sip_ua *agent, uint32_t place, sip_ua_start *start, uint8_t *buffer,
                               size_t room);
uint32_t sip_ua_raw_header_value(sip_ua *agent, uint32_t place, const uint8_t *name,
                                 size_t name_len, size_t number, sip_ua_text *text,
                                 uint8_t *buffer, size_t room);
uint32_t sip_ua_raw_header_line(sip_ua *agent, uint32_t place, size_t number,
                                sip_ua_header_lengths *line, uint8_t *buffer, size_t room);
uint32_t sip_ua_raw_header_values(sip_ua *agent, uint32_t place, const uint8_t *name,
                                  size_t name_len, size_t *len, uint8_t *buffer, size_t room);
uint32_t sip_ua_raw_header_lines(sip_ua *agent, uint32_t place, size_t *len, uint8_t *buffer,
                                 size_t room);
uint32_t sip_ua_raw_round_text(sip_ua *agent, size_t *len, uint8_t *buffer, size_t room);
uint32_t sip_ua_raw_resume(sip_ua *agent, const uint8_t *text, size_t len, sip_ua_resumed *resumed);
uint32_t sip_ua_raw_free(sip_ua *agent);

/* Creates an agent, in a `sip_ua` that has none. One shard is enough. The number of shards, up to
 * 256, changes no output. Faults: SIP_UA_AGENT_EXISTS, SIP_UA_BAD_CONFIGURATION, SIP_UA_NO_MEMORY.
 * Here and below, SIP_UA_NULL and SIP_UA_NO_AGENT aren't listed. */
static inline uint32_t sip_ua_new(sip_ua *agent, const sip_ua_configuration *configuration,
                                  size_t shards)
{
    if (agent == NULL || configuration == NULL)
        return SIP_UA_NULL;
    return sip_ua_raw_new(agent, configuration, shards);
}

/* Adds a received datagram to the events of the next round. Faults: SIP_UA_TOO_MANY_EVENTS,
 * SIP_UA_NO_MEMORY. */
static inline uint32_t sip_ua_datagram(sip_ua *agent, const sip_ua_address *from,
                                       const uint8_t *bytes, size_t len)
{
    if (agent == NULL || from == NULL || bytes == NULL)
        return SIP_UA_NULL;
    return sip_ua_raw_datagram(agent, from, bytes, len);
}

/* Adds an event to the next round: a command of the user, or another event, as a line of an event
 * file without its line feed (docs/FORMATS.md). Faults: SIP_UA_BAD_LINE, SIP_UA_TOO_MANY_EVENTS,
 * SIP_UA_NO_MEMORY. */
static inline uint32_t sip_ua_event_line(sip_ua *agent, const char *line, size_t len)
{
    if (agent == NULL || line == NULL)
        return SIP_UA_NULL;
    return sip_ua_raw_event_line(agent, (const uint8_t *)line, len);
}

/* The same for the lines of a session file, the last one without its line feed: a command may have
 * header lines before it. Each begins with a space and ends in a line feed, as in
 * " Contact: <sip:a@192.0.2.1>\n". A backslash in it is written twice. The command `cancel` takes
 * none. Faults: as above. */
static inline uint32_t sip_ua_event_lines(sip_ua *agent, const char *lines, size_t len)
{
    if (agent == NULL || lines == NULL)
        return SIP_UA_NULL;
    return sip_ua_raw_event_lines(agent, (const uint8_t *)lines, len);
}

/* ---- commands of the user by their fields, each an event of the next round
 *
 * A command means what the line of the same name means in docs/FORMATS.md. `asked` may be NULL. If
 * not, notices about the command have its `id` (a refusal its place: `command` of the output).
 * `bad_field` is 0, except after SIP_UA_BAD_FIELD. After SIP_UA_BAD_FIELD, SIP_UA_TOO_MANY_EVENTS,
 * SIP_UA_NO_MEMORY and SIP_UA_NULL there is no command. If the core refuses a command later, a
 * notice says so: SIP_UA_REFUSAL_.. */

/* The bytes of a string, without the zero byte at its end. */
static inline sip_ua_bytes sip_ua_string(const char *string)
{
    sip_ua_bytes bytes = { string, string == NULL ? 0 : strlen(string) };
    return bytes;
}

/* A pointer for the library, which takes no NULL. */
static inline const uint8_t *sip_ua_raw_at(sip_ua_bytes bytes)
{
    return (const uint8_t *)(bytes.at == NULL ? "" : bytes.at);
}

static inline bool sip_ua_raw_is_there(sip_ua_bytes bytes)
{
    return bytes.at != NULL || bytes.len == 0;
}

/* Gives the library the headers of the next command. */
static inline uint32_t sip_ua_raw_headers(sip_ua *agent, const sip_ua_header *headers,
                                          size_t count, sip_ua_asked *asked)
{
    if (headers == NULL && count != 0)
        return SIP_UA_NULL;
    for (size_t i = 0; i < count; i++)
        if (!sip_ua_raw_is_there(headers[i].name) || !sip_ua_raw_is_there(headers[i].value))
            return SIP_UA_NULL;
    for (size_t i = 0; i < count; i++) {
        uint32_t status = sip_ua_raw_header(agent, sip_ua_raw_at(headers[i].name),
                                            headers[i].name.len, sip_ua_raw_at(headers[i].value),
                                            headers[i].value.len);
        if (status == SIP_UA_BAD_FIELD)
            asked->bad_field = SIP_UA_FIELD_HEADERS;
        if (status != SIP_UA_OK)
            return status;
    }
    return SIP_UA_OK;
}

/* Where to write the id of a command, filled with zeros. */
static inline sip_ua_asked *sip_ua_raw_asked(sip_ua_asked *asked, sip_ua_asked *otherwise)
{
    sip_ua_asked *told = asked == NULL ? otherwise : asked;
    memset(told, 0, sizeof *told);
    return told;
}

/* generated from bindings/commands.tsv: begin functions */
/* Starts a call: sends an initial INVITE to an address. See RFC 3261, section 13.2.1. Refusals:
 * CALL_IN_USE. */
static inline uint32_t sip_ua_invite(sip_ua *agent, const sip_ua_invite_fields *fields,
                                     sip_ua_asked *asked)
{
    sip_ua_asked otherwise, *told = sip_ua_raw_asked(asked, &otherwise);
    if (agent == NULL || fields == NULL || !sip_ua_raw_is_there(fields->call_id)
        || !sip_ua_raw_is_there(fields->request_uri) || !sip_ua_raw_is_there(fields->from)
        || !sip_ua_raw_is_there(fields->to) || !sip_ua_raw_is_there(fields->body))
        return SIP_UA_NULL;
    uint32_t status = sip_ua_raw_headers(agent, fields->headers, fields->header_count, told);
    if (status != SIP_UA_OK)
        return status;
    return sip_ua_raw_invite(agent, sip_ua_raw_at(fields->call_id), fields->call_id.len,
                             &fields->address, sip_ua_raw_at(fields->request_uri),
                             fields->request_uri.len, sip_ua_raw_at(fields->from), fields->from.len,
                             sip_ua_raw_at(fields->to), fields->to.len, fields->supports_100rel,
                             fields->requires_100rel, sip_ua_raw_at(fields->body), fields->body.len,
                             told);
}

/* Sends a request outside of any dialog to an address. REGISTER and OPTIONS are such. See RFC 3261,
 * section 8.1.1. Refusals: CALL_IN_USE, BAD_METHOD. */
static inline uint32_t sip_ua_plain(sip_ua *agent, const sip_ua_plain_fields *fields,
                                    sip_ua_asked *asked)
{
    sip_ua_asked otherwise, *told = sip_ua_raw_asked(asked, &otherwise);
    if (agent == NULL || fields == NULL || !sip_ua_raw_is_there(fields->call_id)
        || !sip_ua_raw_is_there(fields->method) || !sip_ua_raw_is_there(fields->request_uri)
        || !sip_ua_raw_is_there(fields->from) || !sip_ua_raw_is_there(fields->to)
        || !sip_ua_raw_is_there(fields->body))
        return SIP_UA_NULL;
    uint32_t status = sip_ua_raw_headers(agent, fields->headers, fields->header_count, told);
    if (status != SIP_UA_OK)
        return status;
    return sip_ua_raw_plain(agent, sip_ua_raw_at(fields->call_id), fields->call_id.len,
                            &fields->address, sip_ua_raw_at(fields->method), fields->method.len,
                            sip_ua_raw_at(fields->request_uri), fields->request_uri.len,
                            sip_ua_raw_at(fields->from), fields->from.len,
                            sip_ua_raw_at(fields->to), fields->to.len, sip_ua_raw_at(fields->body),
                            fields->body.len, told);
}

/* Sends a request in a dialog, such as BYE or a re-INVITE. To offer 100rel in a re-INVITE, give the
 * header Supported or Require with 100rel: its reliable provisional responses get their PRACKs as
 * those of a first INVITE. See RFC 3261, section 12.2.1.1. Refusals: NO_SUCH_CALL, NO_SUCH_DIALOG,
 * BAD_METHOD, STRICT_ROUTE, SEQUENCE_USED_UP. */
static inline uint32_t sip_ua_request(sip_ua *agent, const sip_ua_request_fields *fields,
                                      sip_ua_asked *asked)
{
    sip_ua_asked otherwise, *told = sip_ua_raw_asked(asked, &otherwise);
    if (agent == NULL || fields == NULL || !sip_ua_raw_is_there(fields->call_id)
        || !sip_ua_raw_is_there(fields->local_tag) || !sip_ua_raw_is_there(fields->remote_tag)
        || !sip_ua_raw_is_there(fields->method) || !sip_ua_raw_is_there(fields->body))
        return SIP_UA_NULL;
    uint32_t status = sip_ua_raw_headers(agent, fields->headers, fields->header_count, told);
    if (status != SIP_UA_OK)
        return status;
    return sip_ua_raw_request(agent, sip_ua_raw_at(fields->call_id), fields->call_id.len,
                              sip_ua_raw_at(fields->local_tag), fields->local_tag.len,
                              sip_ua_raw_at(fields->remote_tag), fields->remote_tag.len,
                              sip_ua_raw_at(fields->method), fields->method.len,
                              sip_ua_raw_at(fields->body), fields->body.len, told);
}

/* Answers the request with this id, that of its notice; if an INVITE requires 100rel, each response
 * of 101 to 199 is reliable. What is refused as RELIABLE_PENDING can be given again after the
 * notice PRACK or NO_PRACK. A response of 300 to 699 is taken at any time. See RFC 3261, section
 * 8.2.6; RFC 3262, section 3. Refusals: NO_SUCH_CALL, NO_SUCH_REQUEST, ALREADY_FINAL,
 * NOT_SUPPORTED, DIALOG_ENDED, RELIABLE_PENDING, SEQUENCE_USED_UP. */
static inline uint32_t sip_ua_respond(sip_ua *agent, const sip_ua_respond_fields *fields,
                                      sip_ua_asked *asked)
{
    sip_ua_asked otherwise, *told = sip_ua_raw_asked(asked, &otherwise);
    if (agent == NULL || fields == NULL || !sip_ua_raw_is_there(fields->call_id)
        || !sip_ua_raw_is_there(fields->reason) || !sip_ua_raw_is_there(fields->body))
        return SIP_UA_NULL;
    uint32_t status = sip_ua_raw_headers(agent, fields->headers, fields->header_count, told);
    if (status != SIP_UA_OK)
        return status;
    return sip_ua_raw_respond(agent, sip_ua_raw_at(fields->call_id), fields->call_id.len,
                              fields->id.round, fields->id.place, fields->status,
                              fields->is_reliable, sip_ua_raw_at(fields->reason),
                              fields->reason.len, sip_ua_raw_at(fields->body), fields->body.len,
                              told);
}

/* Sends the ACK of the dialog's oldest 2xx that needs one; most go out by themselves
 * (docs/EMBEDDING.md). See RFC 3261, section 13.2.2.4. Refusals: NO_SUCH_CALL, NO_SUCH_DIALOG,
 * NOTHING_TO_ACK, STRICT_ROUTE. */
static inline uint32_t sip_ua_ack(sip_ua *agent, const sip_ua_body_fields *fields,
                                  sip_ua_asked *asked)
{
    sip_ua_asked otherwise, *told = sip_ua_raw_asked(asked, &otherwise);
    if (agent == NULL || fields == NULL || !sip_ua_raw_is_there(fields->call_id)
        || !sip_ua_raw_is_there(fields->local_tag) || !sip_ua_raw_is_there(fields->remote_tag)
        || !sip_ua_raw_is_there(fields->body))
        return SIP_UA_NULL;
    uint32_t status = sip_ua_raw_headers(agent, fields->headers, fields->header_count, told);
    if (status != SIP_UA_OK)
        return status;
    return sip_ua_raw_ack(agent, sip_ua_raw_at(fields->call_id), fields->call_id.len,
                          sip_ua_raw_at(fields->local_tag), fields->local_tag.len,
                          sip_ua_raw_at(fields->remote_tag), fields->remote_tag.len,
                          sip_ua_raw_at(fields->body), fields->body.len, told);
}

/* Sends the PRACK of the dialog's oldest reliable provisional response that needs one; most go out
 * by themselves (docs/EMBEDDING.md). See RFC 3262, section 4. Refusals: NO_SUCH_CALL,
 * NO_SUCH_DIALOG, NOTHING_TO_PRACK, STRICT_ROUTE, SEQUENCE_USED_UP. */
static inline uint32_t sip_ua_prack(sip_ua *agent, const sip_ua_body_fields *fields,
                                    sip_ua_asked *asked)
{
    sip_ua_asked otherwise, *told = sip_ua_raw_asked(asked, &otherwise);
    if (agent == NULL || fields == NULL || !sip_ua_raw_is_there(fields->call_id)
        || !sip_ua_raw_is_there(fields->local_tag) || !sip_ua_raw_is_there(fields->remote_tag)
        || !sip_ua_raw_is_there(fields->body))
        return SIP_UA_NULL;
    uint32_t status = sip_ua_raw_headers(agent, fields->headers, fields->header_count, told);
    if (status != SIP_UA_OK)
        return status;
    return sip_ua_raw_prack(agent, sip_ua_raw_at(fields->call_id), fields->call_id.len,
                            sip_ua_raw_at(fields->local_tag), fields->local_tag.len,
                            sip_ua_raw_at(fields->remote_tag), fields->remote_tag.len,
                            sip_ua_raw_at(fields->body), fields->body.len, told);
}

/* Cancels the INVITE with this id, that of its command. The dialog of a re-INVITE stays. See RFC
 * 3261, section 9.1. Refusals: NO_SUCH_CALL, NO_SUCH_REQUEST, ALREADY_FINAL. */
static inline uint32_t sip_ua_cancel(sip_ua *agent, const sip_ua_cancel_fields *fields,
                                     sip_ua_asked *asked)
{
    sip_ua_asked otherwise, *told = sip_ua_raw_asked(asked, &otherwise);
    if (agent == NULL || fields == NULL || !sip_ua_raw_is_there(fields->call_id))
        return SIP_UA_NULL;
    return sip_ua_raw_cancel(agent, sip_ua_raw_at(fields->call_id), fields->call_id.len,
                             fields->id.round, fields->id.place, told);
}

/* Gives up the request with this id, that of its command: it is no longer held, its early dialogs
 * end, and nothing more is sent or told of it. An INVITE whose peer is dead needs that. For each
 * early dialog the notice ENDED follows. Refusals: NO_SUCH_CALL, NO_SUCH_REQUEST. */
static inline uint32_t sip_ua_abandon_request(sip_ua *agent,
                                              const sip_ua_abandon_request_fields *fields,
                                              sip_ua_asked *asked)
{
    sip_ua_asked otherwise, *told = sip_ua_raw_asked(asked, &otherwise);
    if (agent == NULL || fields == NULL || !sip_ua_raw_is_there(fields->call_id))
        return SIP_UA_NULL;
    return sip_ua_raw_abandon_request(agent, sip_ua_raw_at(fields->call_id), fields->call_id.len,
                                      fields->id.round, fields->id.place, told);
}

/* Gives up the dialog with these tags: it ends, and nothing is sent. The notice ENDED follows.
 * Refusals: NO_SUCH_CALL, NO_SUCH_DIALOG. */
static inline uint32_t sip_ua_abandon_dialog(sip_ua *agent,
                                             const sip_ua_abandon_dialog_fields *fields,
                                             sip_ua_asked *asked)
{
    sip_ua_asked otherwise, *told = sip_ua_raw_asked(asked, &otherwise);
    if (agent == NULL || fields == NULL || !sip_ua_raw_is_there(fields->call_id)
        || !sip_ua_raw_is_there(fields->local_tag) || !sip_ua_raw_is_there(fields->remote_tag))
        return SIP_UA_NULL;
    return sip_ua_raw_abandon_dialog(agent, sip_ua_raw_at(fields->call_id), fields->call_id.len,
                                     sip_ua_raw_at(fields->local_tag), fields->local_tag.len,
                                     sip_ua_raw_at(fields->remote_tag), fields->remote_tag.len,
                                     told);
}
/* generated from bindings/commands.tsv: end */

/* ---- the rest of a host's loop */

/* Says that the send with this index, of the last round, failed. Except for the ACK of a 2xx, that
 * is an event of the next round. Call it before that round, if the socket refuses a send, or if the
 * send is longer than SIP_UA_LARGEST_DATAGRAM. Faults: SIP_UA_NO_SEND (the output is no send),
 * SIP_UA_TOO_MANY_EVENTS (then the transaction ends by its timers), SIP_UA_NO_MEMORY. */
static inline uint32_t sip_ua_failed(sip_ua *agent, size_t output)
{
    if (agent == NULL)
        return SIP_UA_NULL;
    return sip_ua_raw_failed(agent, output);
}

/* Runs a round: handles all events since the last one, at this moment. Take all outputs of the last
 * round first. Faults: SIP_UA_OUTPUTS_LEFT, SIP_UA_BACKWARDS, SIP_UA_MOMENT_TOO_LARGE,
 * SIP_UA_USED_UP, SIP_UA_NO_MEMORY (the events still wait), SIP_UA_BROKEN.
 *
 * To go on without memory: after SIP_UA_NO_MEMORY, give no more events, and call this again some
 * times, with a pause between two; after SIP_UA_NO_MEMORY from sip_ua_next, call that again, or
 * sip_ua_skip. If it stays, or after SIP_UA_BROKEN, free the agent (sip_ua_free), and make a new
 * one with another seed. All ids and calls are gone then, as is what waited; the peers' requests in
 * those calls get 481. */
static inline uint32_t sip_ua_run(sip_ua *agent, uint64_t moment)
{
    if (agent == NULL)
        return SIP_UA_NULL;
    return sip_ua_raw_run(agent, moment);
}

/* A buffer for the library, which takes no NULL. */
static inline uint8_t *sip_ua_raw_room(uint8_t *buffer, uint8_t *otherwise)
{
    return buffer == NULL ? otherwise : buffer;
}

/* Takes the next output of the last round, by its fields, and writes its texts to the buffer. The
 * kind SIP_UA_NOTHING says that none is left. No text ends in a zero byte. Faults: SIP_UA_NO_ROOM,
 * if the texts are longer than `room`: the output is filled in and stays, and sip_ua_texts_len says
 * how much room it needs; SIP_UA_NO_MEMORY: the output stays, and the struct says nothing of it
 * (its kind is SIP_UA_NOTHING). */
static inline uint32_t sip_ua_next(sip_ua *agent, sip_ua_typed_output *output, uint8_t *buffer,
                                   size_t room)
{
    uint8_t otherwise = 0;
    if (agent == NULL || output == NULL || (buffer == NULL && room != 0))
        return SIP_UA_NULL;
    return sip_ua_raw_next(agent, output, sip_ua_raw_room(buffer, &otherwise), room);
}

/* Takes the next output of the last round, as a datagram or as a line, which ends in a line feed,
 * and writes it to the buffer. Otherwise as sip_ua_next; `len` says how much room it needs. A line
 * can be four times as long as the datagram that it is about, since it is escaped. */
static inline uint32_t sip_ua_next_line(sip_ua *agent, sip_ua_output *output, uint8_t *buffer,
                                        size_t room)
{
    uint8_t otherwise = 0;
    if (agent == NULL || output == NULL || (buffer == NULL && room != 0))
        return SIP_UA_NULL;
    return sip_ua_raw_next_output(agent, output, sip_ua_raw_room(buffer, &otherwise), room);
}

/* Skips the next output of the last round: takes it without its text, such as one that had no room.
 * Does nothing if none is left. For a send, call sip_ua_failed too, since it didn't go out; the
 * index of one that gave SIP_UA_NO_MEMORY is the number of outputs taken before it. A request whose
 * notice is skipped stays held. */
static inline uint32_t sip_ua_skip(sip_ua *agent)
{
    if (agent == NULL)
        return SIP_UA_NULL;
    return sip_ua_raw_skip(agent);
}

/* How much room the texts of an output need. */
static inline size_t sip_ua_texts_len(const sip_ua_typed_output *output)
{
    return output->call_id_len + output->local_tag_len + output->remote_tag_len
        + output->method_len + output->body_len;
}

/* The texts of an output in the buffer that sip_ua_next wrote, until it is written again. */
static inline sip_ua_texts sip_ua_texts_of(const sip_ua_typed_output *output, const uint8_t *buffer)
{
    sip_ua_texts texts;
    texts.call_id.at = buffer;
    texts.call_id.len = output->call_id_len;
    texts.local_tag.at = buffer + output->call_id_len;
    texts.local_tag.len = output->local_tag_len;
    texts.remote_tag.at = (const uint8_t *)texts.local_tag.at + output->local_tag_len;
    texts.remote_tag.len = output->remote_tag_len;
    texts.method.at = (const uint8_t *)texts.remote_tag.at + output->remote_tag_len;
    texts.method.len = output->method_len;
    texts.body.at = (const uint8_t *)texts.method.at + output->method_len;
    texts.body.len = output->body_len;
    return texts;
}

/* Whether the bytes are equal to those of a string. */
static inline bool sip_ua_is(sip_ua_bytes bytes, const char *string)
{
    return bytes.len == strlen(string)
        && (bytes.len == 0 || memcmp(bytes.at, string, bytes.len) == 0);
}

/* Whether two ids are equal. */
static inline bool sip_ua_is_id(sip_ua_id one, sip_ua_id other)
{
    return one.is_given == other.is_given && one.round == other.round && one.place == other.place;
}

/* Counts what the agent holds, and what waits. */
static inline uint32_t sip_ua_stats(sip_ua *agent, sip_ua_counts *counts)
{
    if (agent == NULL || counts == NULL)
        return SIP_UA_NULL;
    return sip_ua_raw_stats(agent, counts);
}

/* The first moment at which something is due, if there is one. Before that, a round without events
 * gives no output. */
static inline uint32_t sip_ua_next_due(sip_ua *agent, sip_ua_due *due)
{
    if (agent == NULL || due == NULL)
        return SIP_UA_NULL;
    return sip_ua_raw_next_due(agent, due);
}

/* The id of the event that was added last, if the next round has one. Notices about a command have
 * it; a refusal only its place. */
static inline uint32_t sip_ua_last_id(sip_ua *agent, sip_ua_id *id)
{
    if (agent == NULL || id == NULL)
        return SIP_UA_NULL;
    return sip_ua_raw_last_id(agent, id);
}

/* The local tag of the dialogs that an INVITE with this id opens, or the From tag of a request with
 * this id outside of dialogs: 41 characters, written to the buffer. Dialogs are held by it. The
 * local tag of a notice is what the peer's response has in its place, which a wrong peer changes.
 * Faults: SIP_UA_NO_ROOM, if `len` is more than `room`; SIP_UA_NO_MEMORY. */
static inline uint32_t sip_ua_opening_tag(sip_ua *agent, sip_ua_id id, size_t *len,
                                          uint8_t *buffer, size_t room)
{
    uint8_t otherwise = 0;
    if (agent == NULL || len == NULL || (buffer == NULL && room != 0))
        return SIP_UA_NULL;
    return sip_ua_raw_opening_tag(agent, id.round, id.place, len,
                                  sip_ua_raw_room(buffer, &otherwise), room);
}

/* Whether a datagram would begin a transaction if it came in the next round: it is a request other
 * than ACK, and no transaction with its key is held. An agent that holds too much can be spared
 * such datagrams. Fault: SIP_UA_NO_MEMORY. */
static inline uint32_t sip_ua_would_begin(sip_ua *agent, const uint8_t *bytes, size_t len,
                                          bool *begins)
{
    if (agent == NULL || bytes == NULL || begins == NULL)
        return SIP_UA_NULL;
    return sip_ua_raw_would_begin(agent, bytes, len, begins);
}

/* The datagram with this place in the last round, if there is one: the cause of the outputs with
 * this place. It is kept until the next round runs, even if it was dropped. Its bytes are written
 * to the buffer. Fault: SIP_UA_NO_ROOM, if its `len` is more than `room`. */
static inline uint32_t sip_ua_datagram_at(sip_ua *agent, uint32_t place, sip_ua_arrival *arrival,
                                          uint8_t *buffer, size_t room)
{
    uint8_t otherwise = 0;
    if (agent == NULL || arrival == NULL || (buffer == NULL && room != 0))
        return SIP_UA_NULL;
    return sip_ua_raw_datagram_at(agent, place, arrival, sip_ua_raw_room(buffer, &otherwise), room);
}

/* Whether a send would go to another IP address than the datagram that caused it came from: a
 * response that is sent again since its request came again, from elsewhere. Leave it out, without
 * sip_ua_failed. Otherwise whoever forged the source of a large request has each small repeat send
 * a large response to a victim. `text` is that of the output. Of other outputs it is false. */
static inline bool sip_ua_is_reflected(sip_ua *agent, const sip_ua_typed_output *output,
                                       const uint8_t *text)
{
    sip_ua_arrival cause;
    cause.is_there = false;
    if (agent == NULL || output == NULL || text == NULL || output->kind != SIP_UA_SEND)
        return false;
    if (output->place == 0 || output->body_len < 8 || memcmp(text, "SIP/2.0 ", 8) != 0)
        return false;
    (void)sip_ua_datagram_at(agent, output->place, &cause, NULL, 0);
    return cause.is_there && memcmp(cause.from.ip, output->to.ip, sizeof cause.from.ip) != 0;
}

/* What the request with this place in the last round says of itself. `is_there` is false if there
 * is none. Fault: SIP_UA_NO_MEMORY. */
static inline uint32_t sip_ua_request_traits_at(sip_ua *agent, uint32_t place,
                                                sip_ua_request_traits *traits)
{
    if (agent == NULL || traits == NULL)
        return SIP_UA_NULL;
    return sip_ua_raw_request_traits(agent, place, traits);
}

/* The start line of that datagram. Its text is written to the buffer. Faults: SIP_UA_NO_ROOM, if
 * `method_len` and `len` together are more than `room`; SIP_UA_NO_MEMORY. */
static inline uint32_t sip_ua_start_line(sip_ua *agent, uint32_t place, sip_ua_start *start,
                                         uint8_t *buffer, size_t room)
{
    uint8_t otherwise = 0;
    if (agent == NULL || start == NULL || (buffer == NULL && room != 0))
        return SIP_UA_NULL;
    return sip_ua_raw_start_line(agent, place, start, sip_ua_raw_room(buffer, &otherwise), room);
}

/* The value of the header line with this number, from 0, among the lines of that datagram with this
 * name. `is_there` is false if there is none. The name may be long or compact, in any case. The
 * value is unfolded, without white space around it, and is written to the buffer. Faults:
 * SIP_UA_NO_ROOM, if its `len` is more than `room`; SIP_UA_NO_MEMORY. Each call reads the datagram
 * from its beginning, and a peer can send thousands of values: sip_ua_header_values gives all. */
static inline uint32_t sip_ua_header_value(sip_ua *agent, uint32_t place, const char *name,
                                           size_t name_len, size_t number, sip_ua_text *text,
                                           uint8_t *buffer, size_t room)
{
    uint8_t otherwise = 0;
    if (agent == NULL || name == NULL || text == NULL || (buffer == NULL && room != 0))
        return SIP_UA_NULL;
    return sip_ua_raw_header_value(agent, place, (const uint8_t *)name, name_len, number, text,
                                   sip_ua_raw_room(buffer, &otherwise), room);
}

/* The header line with this number, from 0, of that datagram, in the order in which they came.
 * `is_there` is false if there is none. Its name as it came and, directly after it, its value,
 * unfolded and without white space around it, are written to the buffer. Faults: SIP_UA_NO_ROOM, if
 * `name_len` and `len` together are more than `room`; SIP_UA_NO_MEMORY. Each call reads the
 * datagram from its beginning, and a peer can send thousands of lines: sip_ua_header_lines gives
 * all. */
static inline uint32_t sip_ua_header_line(sip_ua *agent, uint32_t place, size_t number,
                                          sip_ua_header_lengths *line, uint8_t *buffer,
                                          size_t room)
{
    uint8_t otherwise = 0;
    if (agent == NULL || line == NULL || (buffer == NULL && room != 0))
        return SIP_UA_NULL;
    return sip_ua_raw_header_line(agent, place, number, line, sip_ua_raw_room(buffer, &otherwise),
                                  room);
}

/* All values of a header in that datagram, in order, by one reading of it: each as
 * sip_ua_header_value gives it, with a line feed behind it. No value has a line feed. They are
 * written to the buffer. Faults: SIP_UA_NO_ROOM, if `len` is more than `room`; SIP_UA_NO_MEMORY. */
static inline uint32_t sip_ua_header_values(sip_ua *agent, uint32_t place, const char *name,
                                            size_t name_len, size_t *len, uint8_t *buffer,
                                            size_t room)
{
    uint8_t otherwise = 0;
    if (agent == NULL || name == NULL || len == NULL || (buffer == NULL && room != 0))
        return SIP_UA_NULL;
    return sip_ua_raw_header_values(agent, place, (const uint8_t *)name, name_len, len,
                                    sip_ua_raw_room(buffer, &otherwise), room);
}

/* All header lines of that datagram, in order, by one reading of it: the name of each as it came, a
 * colon, its value as sip_ua_header_line gives it, and a line feed. No name has a colon, and no
 * value a line feed. They are written to the buffer. Faults: SIP_UA_NO_ROOM, if `len` is more than
 * `room`; SIP_UA_NO_MEMORY. */
static inline uint32_t sip_ua_header_lines(sip_ua *agent, uint32_t place, size_t *len,
                                           uint8_t *buffer, size_t room)
{
    uint8_t otherwise = 0;
    if (agent == NULL || len == NULL || (buffer == NULL && room != 0))
        return SIP_UA_NULL;
    return sip_ua_raw_header_lines(agent, place, len, sip_ua_raw_room(buffer, &otherwise), room);
}

/* The address with this number, from 0, in the value of a Contact, a Route, a Record-Route or a
 * header of their form, such as Refer-To, and the value of its parameter with this name, in any
 * case (may be NULL). `is_there` is false if the value has no such form or address. The texts are
 * written to the buffer. Faults: SIP_UA_NO_ROOM, if the lengths together are more than `room`;
 * SIP_UA_NO_MEMORY. */
static inline uint32_t sip_ua_address_in(sip_ua_bytes value, size_t number, const char *parameter,
                                         sip_ua_address_lengths *lengths, uint8_t *buffer,
                                         size_t room)
{
    uint8_t otherwise = 0;
    sip_ua_bytes name = sip_ua_string(parameter);
    if (!sip_ua_raw_is_there(value) || lengths == NULL || (buffer == NULL && room != 0))
        return SIP_UA_NULL;
    return sip_ua_raw_address(sip_ua_raw_at(value), value.len, number, sip_ua_raw_at(name),
                              name.len, lengths, sip_ua_raw_room(buffer, &otherwise), room);
}

/* The same of the value of a From or a To, which is one address. */
static inline uint32_t sip_ua_party_in(sip_ua_bytes value, const char *parameter,
                                       sip_ua_address_lengths *lengths, uint8_t *buffer,
                                       size_t room)
{
    uint8_t otherwise = 0;
    sip_ua_bytes name = sip_ua_string(parameter);
    if (!sip_ua_raw_is_there(value) || lengths == NULL || (buffer == NULL && room != 0))
        return SIP_UA_NULL;
    return sip_ua_raw_party(sip_ua_raw_at(value), value.len, sip_ua_raw_at(name), name.len, lengths,
                            sip_ua_raw_room(buffer, &otherwise), room);
}

/* Takes the quotes of a quoted string away, in place, and each backslash before another character
 * (RFC 3261, section 25.1); any other text stays as it is. Gives the new length. */
static inline size_t sip_ua_unquote(uint8_t *text, size_t len)
{
    size_t kept = 0;
    if (len < 2 || text[0] != '"' || text[len - 1] != '"')
        return len;
    for (size_t at = 1; at + 1 < len; at++) {
        if (text[at] == '\\' && at + 2 < len)
            at++;
        text[kept++] = text[at];
    }
    return kept;
}

/* The lines of the last round, as a session file has them behind its head (docs/FORMATS.md); none
 * before the first round. Appended to a journal before the round's outputs go out, they let an
 * agent go on in another process: see sip_ua_resume. They are written to the buffer. Faults:
 * SIP_UA_NO_ROOM, if `len` is more than `room`; SIP_UA_NO_MEMORY. */
static inline uint32_t sip_ua_round_text(sip_ua *agent, size_t *len, uint8_t *buffer, size_t room)
{
    uint8_t otherwise = 0;
    if (agent == NULL || len == NULL || (buffer == NULL && room != 0))
        return SIP_UA_NULL;
    return sip_ua_raw_round_text(agent, len, sip_ua_raw_room(buffer, &otherwise), room);
}

/* Runs the first round of a text again, as sip_ua_round_text gave it, without outputs. The text may
 * go on with more rounds: call it again behind the `len` bytes that it took, until none is left.
 * The agent is a new one, with the configuration of the journal's; it goes on as that one did. If
 * the process died while it wrote the last round, its outputs didn't go out. So first cut the
 * journal behind its last line feed: a line without one would count as one of the round before.
 * Then, where the last round gives SIP_UA_BAD_LINE, cut the journal before it. Faults: SIP_UA_BUSY;
 * SIP_UA_BAD_LINE; SIP_UA_NO_MEMORY; those of sip_ua_run about the round. */
static inline uint32_t sip_ua_resume(sip_ua *agent, const void *text, size_t len,
                                     sip_ua_resumed *resumed)
{
    if (agent == NULL || text == NULL || resumed == NULL)
        return SIP_UA_NULL;
    return sip_ua_raw_resume(agent, (const uint8_t *)text, len, resumed);
}

/* Frees the agent; its `sip_ua` has none then. Fault: SIP_UA_NO_AGENT, if it has none. */
static inline uint32_t sip_ua_free(sip_ua *agent)
{
    if (agent == NULL)
        return SIP_UA_NULL;
    return sip_ua_raw_free(agent);
}

#ifdef __cplusplus
}
#endif

#endif
