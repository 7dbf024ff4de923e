/* Digest for programs over sip_ua.h: the credentials that answer a challenge, by which a user
 * proves a password (RFC 3261, section 22; RFC 7616; RFC 8760). It is optional, and no part of the
 * library. The hashes, MD5 and SHA-256, are those of OpenSSL's libcrypto, 1.1 or later: link with
 * -lcrypto.
 *
 *     sip_ua_challenge challenge;
 *     if (sip_ua_challenge_at(&agent, output.place, output.status, &challenge, value, sizeof value)
 *         == SIP_UA_OK)
 *         status = sip_ua_credentials(&challenge, &proof, credentials, sizeof credentials, &len);
 *
 * The value is that of Authorization after a 401, of Proxy-Authorization after a 407:
 * sip_ua_credentials_name. Send the request again with it, under a new Call-ID. If it is challenged
 * again, and `is_stale` is false, the password was refused.
 *
 * For C99 and C++. */
#ifndef SIP_UA_DIGEST_H
#define SIP_UA_DIGEST_H

#include "sip_ua.h"

#include <openssl/evp.h>
#include <openssl/rand.h>
#include <stdio.h>

#ifdef __cplusplus
extern "C" {
#endif

/* A status besides those of sip_ua.h: libcrypto has no memory, no random bytes, or no MD5. */
#define SIP_UA_NO_CRYPTO 256

/* How many header lines of one name are read, each by a reading of the datagram. A peer can send
 * thousands. */
#define SIP_UA_MOST_LINES 64

/* The bytes of a cnonce: hexadecimal digits. */
#define SIP_UA_CNONCE_LEN 32

/* A challenge. The texts point into the value that was read, without their quotes. `has_qop` says
 * whether it offers the quality of protection `auth`. `is_stale` says that only the nonce was
 * refused, and not the password. */
typedef struct sip_ua_challenge {
    sip_ua_bytes value; /* the whole value */
    sip_ua_bytes realm;
    sip_ua_bytes nonce;
    sip_ua_bytes opaque;
    sip_ua_bytes algorithm; /* as it came; empty means MD5 */
    bool has_opaque;
    bool has_qop;
    bool is_stale;
    bool is_sha256;
    bool is_session; /* an algorithm that ends in -sess */
} sip_ua_challenge;

/* Who proves what for which request. `count` says how many requests have used the challenge's
 * nonce, with this one. `cnonce` has the form of a token; all requests with one nonce have the
 * same. */
typedef struct sip_ua_proof {
    sip_ua_bytes username;
    sip_ua_bytes password;
    sip_ua_bytes method;
    sip_ua_bytes uri; /* the Request-URI */
    sip_ua_bytes cnonce;
    uint32_t count;
} sip_ua_proof;

/* ---- private helpers */

/* A text that is read from its begin, or a buffer that is filled. */
typedef struct sip_ua_raw_text {
    const char *at;
    const char *end;
} sip_ua_raw_text;

typedef struct sip_ua_raw_writer {
    uint8_t *buffer;
    size_t room;
    size_t len; /* also of what had no room */
} sip_ua_raw_writer;

/* A hash in hexadecimal digits. */
typedef struct sip_ua_raw_hash {
    char digits[2 * EVP_MAX_MD_SIZE];
    size_t len;
} sip_ua_raw_hash;

static inline char sip_ua_raw_lower(char letter)
{
    return letter >= 'A' && letter <= 'Z' ? (char)(letter - 'A' + 'a') : letter;
}

/* Whether a text is this word, in any case. */
static inline bool sip_ua_raw_is_word(sip_ua_bytes text, const char *word)
{
    const char *at = (const char *)text.at;
    size_t len = strlen(word);
    if (text.len != len)
        return false;
    for (size_t i = 0; i < len; i++)
        if (sip_ua_raw_lower(at[i]) != sip_ua_raw_lower(word[i]))
            return false;
    return true;
}

static inline bool sip_ua_raw_is_blank(char letter)
{
    return letter == ' ' || letter == '\t';
}

static inline void sip_ua_raw_skip_blanks(sip_ua_raw_text *text)
{
    while (text->at < text->end && sip_ua_raw_is_blank(*text->at))
        text->at++;
}

/* Reads up to a blank or one of `ends`. */
static inline sip_ua_bytes sip_ua_raw_read_token(sip_ua_raw_text *text, const char *ends)
{
    sip_ua_bytes token = { text->at, 0 };
    while (text->at < text->end && !sip_ua_raw_is_blank(*text->at) && !strchr(ends, *text->at))
        text->at++;
    token.len = (size_t)(text->at - (const char *)token.at);
    return token;
}

/* Reads a quoted string after its first quote, and returns what stands between the quotes. */
static inline sip_ua_bytes sip_ua_raw_read_quoted(sip_ua_raw_text *text)
{
    sip_ua_bytes quoted = { text->at, 0 };
    while (text->at < text->end && *text->at != '"')
        text->at += *text->at == '\\' && text->end - text->at > 1 ? 2 : 1;
    quoted.len = (size_t)(text->at - (const char *)quoted.at);
    if (text->at < text->end)
        text->at++;
    return quoted;
}

/* Reads the next `name=value`, with the comma after it. False at the end, or at anything else. */
static inline bool sip_ua_raw_read_parameter(sip_ua_raw_text *text, sip_ua_bytes *name,
                                             sip_ua_bytes *value)
{
    sip_ua_raw_skip_blanks(text);
    *name = sip_ua_raw_read_token(text, "=,\"");
    sip_ua_raw_skip_blanks(text);
    if (text->at == text->end || *text->at++ != '=')
        return false;
    sip_ua_raw_skip_blanks(text);
    if (text->at < text->end && *text->at == '"') {
        text->at++;
        *value = sip_ua_raw_read_quoted(text);
    } else {
        *value = sip_ua_raw_read_token(text, ",\"");
    }
    sip_ua_raw_skip_blanks(text);
    if (text->at < text->end && *text->at == ',')
        text->at++;
    return true;
}

/* Whether a list of words, with commas between them, has this one. */
static inline bool sip_ua_raw_has_word(sip_ua_bytes list, const char *word)
{
    sip_ua_raw_text text = { (const char *)list.at, (const char *)list.at + list.len };
    while (text.at < text.end) {
        sip_ua_raw_skip_blanks(&text);
        if (sip_ua_raw_is_word(sip_ua_raw_read_token(&text, ","), word))
            return true;
        sip_ua_raw_skip_blanks(&text);
        if (text.at < text.end)
            text.at++;
    }
    return false;
}

/* Takes an algorithm. False if it isn't known. */
static inline bool sip_ua_raw_take_algorithm(sip_ua_challenge *challenge)
{
    sip_ua_bytes name = challenge->algorithm;
    challenge->is_sha256 =
        sip_ua_raw_is_word(name, "SHA-256") || sip_ua_raw_is_word(name, "SHA-256-sess");
    challenge->is_session =
        sip_ua_raw_is_word(name, "MD5-sess") || sip_ua_raw_is_word(name, "SHA-256-sess");
    return challenge->is_sha256 || challenge->is_session || name.len == 0
        || sip_ua_raw_is_word(name, "MD5");
}

static inline void sip_ua_raw_write(sip_ua_raw_writer *writer, const void *bytes, size_t len)
{
    if (writer->len <= writer->room && len <= writer->room - writer->len && len > 0)
        memcpy(writer->buffer + writer->len, bytes, len);
    writer->len += len;
}

/* Writes `, name="value"`; with `escapes`, quotes and backslashes of the value get a backslash. */
static inline void sip_ua_raw_write_quoted(sip_ua_raw_writer *writer, const char *before,
                                           sip_ua_bytes value, bool escapes)
{
    const char *at = (const char *)value.at;
    sip_ua_raw_write(writer, before, strlen(before));
    sip_ua_raw_write(writer, "\"", 1);
    for (size_t i = 0; i < value.len; i++) {
        if (escapes && (at[i] == '"' || at[i] == '\\'))
            sip_ua_raw_write(writer, "\\", 1);
        sip_ua_raw_write(writer, at + i, 1);
    }
    sip_ua_raw_write(writer, "\"", 1);
}

/* Bytes as hexadecimal digits. */
static inline void sip_ua_raw_write_hex(const unsigned char *bytes, size_t len, char *digits)
{
    static const char letters[] = "0123456789abcdef";
    for (size_t i = 0; i < len; i++) {
        digits[2 * i] = letters[bytes[i] >> 4];
        digits[2 * i + 1] = letters[bytes[i] & 15];
    }
}

/* The hash of texts with colons between them. */
static inline bool sip_ua_raw_hash_of(bool is_sha256, const sip_ua_bytes *texts, size_t count,
                                      sip_ua_raw_hash *hash)
{
    unsigned char bytes[EVP_MAX_MD_SIZE];
    unsigned int len = 0;
    EVP_MD_CTX *context = EVP_MD_CTX_new();
    bool is_good = context != NULL
        && EVP_DigestInit_ex(context, is_sha256 ? EVP_sha256() : EVP_md5(), NULL) == 1;
    for (size_t i = 0; is_good && i < count; i++)
        is_good = (i == 0 || EVP_DigestUpdate(context, ":", 1) == 1)
            && EVP_DigestUpdate(context, texts[i].len == 0 ? "" : texts[i].at, texts[i].len) == 1;
    is_good = is_good && EVP_DigestFinal_ex(context, bytes, &len) == 1;
    EVP_MD_CTX_free(context);
    if (is_good)
        sip_ua_raw_write_hex(bytes, len, hash->digits);
    hash->len = is_good ? 2 * (size_t)len : 0;
    return is_good;
}

static inline sip_ua_bytes sip_ua_raw_digits(const sip_ua_raw_hash *hash)
{
    sip_ua_bytes digits = { hash->digits, hash->len };
    return digits;
}

/* The response to a challenge (RFC 7616, section 3.4.1). `nonce_count` is the count in 8 digits. */
static inline bool sip_ua_raw_response(const sip_ua_challenge *challenge, const sip_ua_proof *proof,
                                       sip_ua_bytes nonce_count, sip_ua_raw_hash *response)
{
    sip_ua_raw_hash secret, session, request;
    sip_ua_bytes a1[] = { proof->username, challenge->realm, proof->password };
    sip_ua_bytes a2[] = { proof->method, proof->uri };
    if (!sip_ua_raw_hash_of(challenge->is_sha256, a1, 3, &secret)
        || !sip_ua_raw_hash_of(challenge->is_sha256, a2, 2, &request))
        return false;
    if (challenge->is_session) {
        sip_ua_bytes parts[] = { sip_ua_raw_digits(&secret), challenge->nonce, proof->cnonce };
        if (!sip_ua_raw_hash_of(challenge->is_sha256, parts, 3, &session))
            return false;
        secret = session;
    }
    if (!challenge->has_qop) {
        sip_ua_bytes parts[] = { sip_ua_raw_digits(&secret), challenge->nonce,
                                 sip_ua_raw_digits(&request) };
        return sip_ua_raw_hash_of(challenge->is_sha256, parts, 3, response);
    }
    sip_ua_bytes parts[] = { sip_ua_raw_digits(&secret), challenge->nonce,
                             nonce_count,                proof->cnonce,
                             sip_ua_string("auth"),      sip_ua_raw_digits(&request) };
    return sip_ua_raw_hash_of(challenge->is_sha256, parts, 6, response);
}

/* ---- Digest */

/* Reads the value of WWW-Authenticate or Proxy-Authenticate. False if it isn't a challenge by
 * Digest, its algorithm isn't known here, or it offers a quality of protection, but not `auth`. */
static inline bool sip_ua_challenge_read(sip_ua_bytes value, sip_ua_challenge *challenge)
{
    bool has_realm = false, has_nonce = false, has_auth = true;
    sip_ua_bytes name, parameter;
    memset(challenge, 0, sizeof *challenge);
    if (value.len == 0)
        return false;
    sip_ua_raw_text text = { (const char *)value.at, (const char *)value.at + value.len };
    challenge->value = value;
    sip_ua_raw_skip_blanks(&text);
    if (!sip_ua_raw_is_word(sip_ua_raw_read_token(&text, ","), "Digest"))
        return false;
    while (sip_ua_raw_read_parameter(&text, &name, &parameter)) {
        if (sip_ua_raw_is_word(name, "realm")) {
            challenge->realm = parameter;
            has_realm = true;
        } else if (sip_ua_raw_is_word(name, "nonce")) {
            challenge->nonce = parameter;
            has_nonce = true;
        } else if (sip_ua_raw_is_word(name, "opaque")) {
            challenge->opaque = parameter;
            challenge->has_opaque = true;
        } else if (sip_ua_raw_is_word(name, "algorithm")) {
            challenge->algorithm = parameter;
        } else if (sip_ua_raw_is_word(name, "stale")) {
            challenge->is_stale = sip_ua_raw_is_word(parameter, "true");
        } else if (sip_ua_raw_is_word(name, "qop")) {
            challenge->has_qop = true;
            has_auth = sip_ua_raw_has_word(parameter, "auth");
        }
    }
    return has_realm && has_nonce && has_auth && sip_ua_raw_take_algorithm(challenge);
}

/* Reads the first challenge that can be answered, of a datagram of the last round: a 401 or a 407.
 * Its value is written to the buffer, into which the challenge points. Faults: SIP_UA_BAD_FIELD if
 * there is none in the first SIP_UA_MOST_LINES lines, and those of sip_ua_header_value. */
static inline uint32_t sip_ua_challenge_at(sip_ua *agent, uint32_t place, uint32_t status,
                                           sip_ua_challenge *challenge, uint8_t *buffer,
                                           size_t room)
{
    const char *name = status == 407 ? "Proxy-Authenticate" : "WWW-Authenticate";
    for (size_t number = 0; number < SIP_UA_MOST_LINES; number++) {
        sip_ua_text text;
        uint32_t fault = sip_ua_header_value(agent, place, name, strlen(name), number, &text,
                                             buffer, room);
        if (fault != SIP_UA_OK)
            return fault;
        sip_ua_bytes value = { buffer, text.len };
        if (!text.is_there)
            break;
        if (sip_ua_challenge_read(value, challenge))
            return SIP_UA_OK;
    }
    return SIP_UA_BAD_FIELD;
}

/* The name of the header that answers a challenge of this status. */
static inline const char *sip_ua_credentials_name(uint32_t status)
{
    return status == 407 ? "Proxy-Authorization" : "Authorization";
}

/* Writes a random cnonce of SIP_UA_CNONCE_LEN digits. Fault: SIP_UA_NO_CRYPTO. */
static inline uint32_t sip_ua_cnonce(char cnonce[SIP_UA_CNONCE_LEN])
{
    unsigned char bytes[SIP_UA_CNONCE_LEN / 2];
    if (RAND_bytes(bytes, sizeof bytes) != 1)
        return SIP_UA_NO_CRYPTO;
    sip_ua_raw_write_hex(bytes, sizeof bytes, cnonce);
    return SIP_UA_OK;
}

/* Writes the credentials, the value of Authorization or Proxy-Authorization, and their length.
 * Faults: SIP_UA_NO_ROOM, if `len` is more than `room` (what the buffer holds then means nothing);
 * SIP_UA_NO_CRYPTO; SIP_UA_NULL. */
static inline uint32_t sip_ua_credentials(const sip_ua_challenge *challenge,
                                          const sip_ua_proof *proof, uint8_t *buffer, size_t room,
                                          size_t *len)
{
    sip_ua_raw_writer writer = { buffer, room, 0 };
    sip_ua_raw_hash response;
    char nonce_count[9];
    if (challenge == NULL || proof == NULL || len == NULL || (buffer == NULL && room != 0))
        return SIP_UA_NULL;
    snprintf(nonce_count, sizeof nonce_count, "%08lx", (unsigned long)proof->count);
    if (!sip_ua_raw_response(challenge, proof, sip_ua_string(nonce_count), &response))
        return SIP_UA_NO_CRYPTO;
    sip_ua_raw_write_quoted(&writer, "Digest username=", proof->username, true);
    sip_ua_raw_write_quoted(&writer, ", realm=", challenge->realm, false);
    sip_ua_raw_write_quoted(&writer, ", nonce=", challenge->nonce, false);
    sip_ua_raw_write_quoted(&writer, ", uri=", proof->uri, false);
    sip_ua_raw_write_quoted(&writer, ", response=", sip_ua_raw_digits(&response), false);
    if (challenge->algorithm.len > 0) {
        sip_ua_raw_write(&writer, ", algorithm=", strlen(", algorithm="));
        sip_ua_raw_write(&writer, challenge->algorithm.at, challenge->algorithm.len);
    }
    if (challenge->has_opaque)
        sip_ua_raw_write_quoted(&writer, ", opaque=", challenge->opaque, false);
    if (challenge->has_qop || challenge->is_session)
        sip_ua_raw_write_quoted(&writer, ", cnonce=", proof->cnonce, false);
    if (challenge->has_qop) {
        sip_ua_raw_write(&writer, ", qop=auth, nc=", strlen(", qop=auth, nc="));
        sip_ua_raw_write(&writer, nonce_count, strlen(nonce_count));
    }
    *len = writer.len;
    return writer.len > room ? SIP_UA_NO_ROOM : SIP_UA_OK;
}

#ifdef __cplusplus
}
#endif

#endif
