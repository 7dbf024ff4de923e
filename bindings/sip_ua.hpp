// A SIP user agent core for C++17: a class over sip_ua.h, in one file. An Agent can be moved, not
// copied, and frees what it holds. Calls throw sip::Error if the library returns a fault.
#ifndef SIP_UA_HPP
#define SIP_UA_HPP

#include "sip_ua.h"

#include <array>
#include <cstdint>
#include <functional>
#include <optional>
#include <stdexcept>
#include <string>
#include <string_view>
#include <tuple>
#include <utility>
#include <vector>

// Ids are compared, ordered by their events, and found in maps of both kinds.
inline bool operator==(const sip_ua_id &one, const sip_ua_id &other) {
    return sip_ua_is_id(one, other);
}

inline bool operator!=(const sip_ua_id &one, const sip_ua_id &other) { return !(one == other); }

inline bool operator<(const sip_ua_id &one, const sip_ua_id &other) {
    return std::tie(one.is_given, one.round, one.place)
        < std::tie(other.is_given, other.round, other.place);
}

template <> struct std::hash<sip_ua_id> {
    std::size_t operator()(const sip_ua_id &id) const noexcept {
        // A round has at most 65,536 events.
        return std::hash<std::uint64_t>()(id.round << 17 ^ id.place);
    }
};

namespace sip {

/// A fault of a call: `status` is one of SIP_UA_.., and after SIP_UA_BAD_FIELD `bad_field` is one
/// of SIP_UA_FIELD_.. `what()` says both in English.
struct Error : std::runtime_error {
    explicit Error(std::uint32_t status, std::uint32_t bad_field = 0)
        : std::runtime_error(text_of(status, bad_field)), status(status), bad_field(bad_field) {}
    std::uint32_t status;
    std::uint32_t bad_field;

private:
    static std::string text_of(std::uint32_t status, std::uint32_t bad_field) {
        const std::string text = std::string("sip_ua: ") + sip_ua_status_text(status);
        return bad_field == 0 ? text : text + ": " + sip_ua_field_text(bad_field);
    }
};

using Address = sip_ua_address;
using Configuration = sip_ua_configuration;
using Id = sip_ua_id;

/// An output of a round: a datagram with the address to send it to, or a line without one. `place`
/// is that of the event that caused it, from 1. It is 0 if a timer caused it, or if it is a new
/// request (not ACK) or response (not 100).
struct Output {
    std::size_t index;
    std::optional<Address> to;
    std::string text;
    std::uint32_t place;
};

/// A header of a command: its name and its value. It owns both.
struct Header {
    std::string name;
    std::string value;
};

/// The fields of commands, as sip_ua.h has them.
// generated from bindings/commands.tsv: begin structs
struct Invite {
    std::string_view call_id;
    Address address;
    std::string_view request_uri;
    std::string_view from;
    std::string_view to;
    bool supports_100rel = false;
    bool requires_100rel = false;
    std::string_view body = {};
    std::vector<Header> headers = {};
};

struct Plain {
    std::string_view call_id;
    Address address;
    std::string_view method;
    std::string_view request_uri;
    std::string_view from;
    std::string_view to;
    std::string_view body = {};
    std::vector<Header> headers = {};
};

struct Request {
    std::string_view call_id;
    std::string_view local_tag;
    std::string_view remote_tag;
    std::string_view method;
    std::string_view body = {};
    std::vector<Header> headers = {};
};

struct Respond {
    std::string_view call_id;
    Id id;
    std::uint16_t status;
    std::string_view reason = {};
    bool is_reliable = false;
    std::string_view body = {};
    std::vector<Header> headers = {};
};

/// Of ack and prack.
struct Body {
    std::string_view call_id;
    std::string_view local_tag;
    std::string_view remote_tag;
    std::string_view body = {};
    std::vector<Header> headers = {};
};
// generated from bindings/commands.tsv: end

/// An output of a round by its fields; `numbers` has those that are numbers.
struct TypedOutput {
    sip_ua_typed_output numbers;
    std::string call_id;
    std::string local_tag;
    std::string remote_tag;
    std::string method;
    std::string body;
};

/// A received datagram.
struct Datagram {
    Address from;
    std::string bytes;
};

/// A start line: the method and Request-URI of a request, or the status and reason of a response
/// (without a method).
struct StartLine {
    std::string method;
    std::string uri;
    std::uint32_t status;
    std::string reason;
};

/// An address in the value of a header: its display text and the value of one of its parameters,
/// without quotes, and its URI.
struct HeaderAddress {
    std::string display;
    std::string uri;
    std::optional<std::string> value;
};

/// A text without its quotes, if it is a quoted string.
inline std::string unquoted(std::string text) {
    text.resize(sip_ua_unquote(reinterpret_cast<std::uint8_t *>(text.data()), text.size()));
    return text;
}

template <class Call> std::optional<HeaderAddress> header_address(std::size_t length, Call call) {
    std::string text(length + 1, '\0');
    sip_ua_address_lengths told{};
    const auto status =
        call(&told, reinterpret_cast<std::uint8_t *>(text.data()), text.size());
    if (status != SIP_UA_OK)
        throw Error(status);
    if (!told.is_there)
        return std::nullopt;
    HeaderAddress address{unquoted(text.substr(0, told.display_len)),
                          text.substr(told.display_len, told.uri_len), std::nullopt};
    if (told.has_parameter)
        address.value =
            unquoted(text.substr(told.display_len + told.uri_len, told.value_len));
    return address;
}

/// The address with this number, from 0, in the value of a Contact, a Route, a Record-Route or a
/// header of their form, such as Refer-To, and the value of one of its parameters.
inline std::optional<HeaderAddress> address_in(std::string_view value, const char *parameter = "",
                                               std::size_t number = 0) {
    return header_address(value.size(), [&](auto *told, auto *room, std::size_t size) {
        return sip_ua_address_in({value.data(), value.size()}, number, parameter, told, room, size);
    });
}

/// The same of the value of a From or a To, which is one address.
inline std::optional<HeaderAddress> party_in(std::string_view value, const char *parameter = "") {
    return header_address(value.size(), [&](auto *told, auto *room, std::size_t size) {
        return sip_ua_party_in({value.data(), value.size()}, parameter, told, room, size);
    });
}

class Agent {
public:
    explicit Agent(const Configuration &configuration, std::size_t shards = 1)
        : buffer(65536) {
        check(sip_ua_new(&agent, &configuration, shards));
    }

    Agent(const Agent &) = delete;
    Agent &operator=(const Agent &) = delete;

    Agent(Agent &&other) noexcept
        : agent(std::exchange(other.agent, none)), buffer(std::move(other.buffer)) {}

    Agent &operator=(Agent &&other) noexcept {
        std::swap(agent, other.agent);
        std::swap(buffer, other.buffer);
        return *this;
    }

    ~Agent() { sip_ua_free(&agent); }

    /// The agent of sip_ua.h, for functions that this class does not have. It stays this object's.
    sip_ua *get() { return &agent; }

    /// Frees the agent before the destructor does. A second close, any later call, and any call on
    /// an object that was moved from is SIP_UA_NO_AGENT.
    void close() { check(sip_ua_free(&agent)); }

    void datagram(const Address &from, std::string_view bytes) {
        const char *data = bytes.empty() ? "" : bytes.data();
        check(sip_ua_datagram(&agent, &from, reinterpret_cast<const std::uint8_t *>(data),
                              bytes.size()));
    }

    /// Adds an event as a line of an event file, without its line feed.
    void event_line(std::string_view line) {
        check(sip_ua_event_line(&agent, line.empty() ? "" : line.data(), line.size()));
    }

    /// Adds an event as lines of a session file, the last one without its line feed: a command may
    /// have header lines before it.
    void event_lines(std::string_view lines) {
        check(sip_ua_event_lines(&agent, lines.empty() ? "" : lines.data(), lines.size()));
    }

    // Each command returns the id that the notices about it have.
    // generated from bindings/commands.tsv: begin methods
    /// Starts a call: sends an initial INVITE to an address.
    Id invite(const Invite &given) {
        const auto headers = headers_of(given.headers);
        return asked(sip_ua_invite, sip_ua_invite_fields{bytes(given.call_id), given.address,
            bytes(given.request_uri), bytes(given.from), bytes(given.to), given.supports_100rel,
            given.requires_100rel, bytes(given.body), headers.data(), headers.size()});
    }

    /// Sends a request outside of any dialog to an address.
    Id plain(const Plain &given) {
        const auto headers = headers_of(given.headers);
        return asked(sip_ua_plain, sip_ua_plain_fields{bytes(given.call_id), given.address,
            bytes(given.method), bytes(given.request_uri), bytes(given.from), bytes(given.to),
            bytes(given.body), headers.data(), headers.size()});
    }

    /// Sends a request in a dialog, such as BYE or a re-INVITE.
    Id request(const Request &given) {
        const auto headers = headers_of(given.headers);
        return asked(sip_ua_request, sip_ua_request_fields{bytes(given.call_id),
            bytes(given.local_tag), bytes(given.remote_tag), bytes(given.method), bytes(given.body),
            headers.data(), headers.size()});
    }

    /// Answers the request with this id, that of its notice; if an INVITE requires 100rel, each
    /// response of 101 to 199 is reliable.
    Id respond(const Respond &given) {
        const auto headers = headers_of(given.headers);
        return asked(sip_ua_respond, sip_ua_respond_fields{bytes(given.call_id), given.id,
            given.status, given.is_reliable, bytes(given.reason), bytes(given.body), headers.data(),
            headers.size()});
    }

    /// Sends the ACK of the dialog's oldest 2xx that needs one; most go out by themselves
    /// (docs/EMBEDDING.md).
    Id ack(const Body &given) {
        const auto headers = headers_of(given.headers);
        return asked(sip_ua_ack, sip_ua_body_fields{bytes(given.call_id), bytes(given.local_tag),
            bytes(given.remote_tag), bytes(given.body), headers.data(), headers.size()});
    }

    /// Sends the PRACK of the dialog's oldest reliable provisional response that needs one; most go
    /// out by themselves (docs/EMBEDDING.md).
    Id prack(const Body &given) {
        const auto headers = headers_of(given.headers);
        return asked(sip_ua_prack, sip_ua_body_fields{bytes(given.call_id), bytes(given.local_tag),
            bytes(given.remote_tag), bytes(given.body), headers.data(), headers.size()});
    }

    /// Cancels the INVITE with this id, that of its command.
    Id cancel(std::string_view call_id, Id id) {
        return asked(sip_ua_cancel, sip_ua_cancel_fields{bytes(call_id), id});
    }

    /// Gives up the request with this id, that of its command: it is no longer held, its early
    /// dialogs end, and nothing more is sent or told of it.
    Id abandon(std::string_view call_id, Id id) {
        return asked(sip_ua_abandon_request, sip_ua_abandon_request_fields{bytes(call_id), id});
    }

    /// Gives up the dialog with these tags: it ends, and nothing is sent.
    Id abandon(std::string_view call_id, std::string_view local_tag, std::string_view remote_tag) {
        return asked(sip_ua_abandon_dialog, sip_ua_abandon_dialog_fields{bytes(call_id),
            bytes(local_tag), bytes(remote_tag)});
    }
    // generated from bindings/commands.tsv: end

    /// Counts what is held, and what waits.
    sip_ua_counts stats() {
        sip_ua_counts told;
        check(sip_ua_stats(&agent, &told));
        return told;
    }

    /// Runs a round at a moment in ms, and returns its outputs by their fields.
    std::vector<TypedOutput> run(std::uint64_t moment) {
        check(sip_ua_run(&agent, moment));
        std::vector<TypedOutput> outputs;
        for (;;) {
            sip_ua_typed_output told;
            text_of(
                [&](std::uint8_t *room, std::size_t size) {
                    return sip_ua_next(&agent, &told, room, size);
                },
                [&] { return sip_ua_texts_len(&told); });
            if (told.kind == SIP_UA_NOTHING)
                return outputs;
            const sip_ua_texts texts = sip_ua_texts_of(&told, buffer.data());
            outputs.push_back({told, string(texts.call_id), string(texts.local_tag),
                               string(texts.remote_tag), string(texts.method),
                               string(texts.body)});
        }
    }

    /// The id of the event that was added last, if the next round has one.
    std::optional<Id> last_id() {
        Id id{};
        check(sip_ua_last_id(&agent, &id));
        return id.is_given ? std::optional(id) : std::nullopt;
    }

    /// Says that the send with this index, of the last round, couldn't be sent: the socket refused
    /// it, or it is longer than SIP_UA_LARGEST_DATAGRAM.
    void failed(std::size_t output) { check(sip_ua_failed(&agent, output)); }

    /// The same, with notices and drops as lines of an output file.
    std::vector<Output> run_lines(std::uint64_t moment) {
        check(sip_ua_run(&agent, moment));
        std::vector<Output> outputs;
        while (auto output = next_output())
            outputs.push_back(std::move(*output));
        return outputs;
    }

    /// The first moment at which something is due.
    std::optional<std::uint64_t> next_due() {
        sip_ua_due due;
        check(sip_ua_next_due(&agent, &due));
        return due.is_due ? std::optional(due.moment) : std::nullopt;
    }

    /// The local tag of the dialogs that an INVITE with this id opens, or the From tag of a request
    /// with this id outside of dialogs. Dialogs are held by it, whatever a response has in its
    /// place.
    std::string opening_tag(Id id) {
        std::size_t len = 0;
        return text_of(
            [&](std::uint8_t *room, std::size_t size) {
                return sip_ua_opening_tag(&agent, id, &len, room, size);
            },
            [&] { return len; });
    }

    /// Whether a datagram would begin a transaction if it came in the next round: it is a request
    /// other than ACK, and no transaction with its key is held. An agent that holds too much can be
    /// spared such datagrams.
    bool would_begin(std::string_view bytes) {
        const char *data = bytes.empty() ? "" : bytes.data();
        bool begins = false;
        check(sip_ua_would_begin(&agent, reinterpret_cast<const std::uint8_t *>(data),
                                 bytes.size(), &begins));
        return begins;
    }

    /// The datagram with this place in the last round, if there is one.
    std::optional<Datagram> datagram_at(std::uint32_t place) {
        sip_ua_arrival came{};
        const std::string bytes = text_of(
            [&](std::uint8_t *room, std::size_t size) {
                return sip_ua_datagram_at(&agent, place, &came, room, size);
            },
            [&] { return came.len; });
        if (!came.is_there)
            return std::nullopt;
        return Datagram{came.from, bytes};
    }

    /// Whether a send of the last round would go to another IP address than the datagram that
    /// caused it came from: leave it out (sip_ua_is_reflected).
    bool is_reflected(const TypedOutput &output) {
        return sip_ua_is_reflected(&agent, &output.numbers,
                                   reinterpret_cast<const std::uint8_t *>(output.body.data()));
    }

    /// What the request with this place says of itself, if it is one.
    std::optional<sip_ua_request_traits> request_traits(std::uint32_t place) {
        sip_ua_request_traits traits{};
        check(sip_ua_request_traits_at(&agent, place, &traits));
        return traits.is_there ? std::optional(traits) : std::nullopt;
    }

    /// Its start line, if it has one.
    std::optional<StartLine> start_line(std::uint32_t place) {
        sip_ua_start start{};
        const std::string text = text_of(
            [&](std::uint8_t *room, std::size_t size) {
                return sip_ua_start_line(&agent, place, &start, room, size);
            },
            [&] { return start.method_len + start.len; });
        if (start.kind == SIP_UA_REQUEST)
            return StartLine{text.substr(0, start.method_len), text.substr(start.method_len),
                             0, {}};
        if (start.kind == SIP_UA_RESPONSE)
            return StartLine{{}, {}, start.status, text};
        return std::nullopt;
    }

    /// The values of one of its headers, by the long or the compact name, in any case.
    std::vector<std::string> header_values(std::uint32_t place, std::string_view name) {
        std::size_t len = 0;
        const std::string text = text_of(
            [&](std::uint8_t *room, std::size_t size) {
                return sip_ua_header_values(&agent, place, name.empty() ? "" : name.data(),
                                            name.size(), &len, room, size);
            },
            [&] { return len; });
        return lines_of(text);
    }

    /// All its header lines in order: the name of each as it came, and its value.
    std::vector<std::pair<std::string, std::string>> header_lines(std::uint32_t place) {
        std::size_t len = 0;
        const std::string text = text_of(
            [&](std::uint8_t *room, std::size_t size) {
                return sip_ua_header_lines(&agent, place, &len, room, size);
            },
            [&] { return len; });
        std::vector<std::pair<std::string, std::string>> lines;
        for (const std::string &line : lines_of(text)) {
            const std::size_t colon = line.find(':');
            lines.emplace_back(line.substr(0, colon), line.substr(colon + 1));
        }
        return lines;
    }

    /// The header line with this number, from 0, of that datagram, if there is one: its name as it
    /// came, and its value. Each call reads the datagram from its beginning.
    std::optional<std::pair<std::string, std::string>> header_line(std::uint32_t place,
                                                                   std::size_t number) {
        sip_ua_header_lengths told{};
        const std::string text = text_of(
            [&](std::uint8_t *room, std::size_t size) {
                return sip_ua_header_line(&agent, place, number, &told, room, size);
            },
            [&] { return told.name_len + told.len; });
        if (!told.is_there)
            return std::nullopt;
        return std::pair(text.substr(0, told.name_len), text.substr(told.name_len));
    }

    /// The lines of the last round, as a session file has them. Appended to a journal before the
    /// outputs of the round go out, they let an agent go on in another process.
    std::string round_text() {
        std::size_t len = 0;
        return text_of(
            [&](std::uint8_t *room, std::size_t size) {
                return sip_ua_round_text(&agent, &len, room, size);
            },
            [&] { return len; });
    }

    /// Runs the first round of a text again, as round_text gave it, without outputs. Returns how
    /// many bytes it takes; call it again behind them, until none is left. First cut the journal
    /// behind its last line feed. SIP_UA_BAD_LINE in the last round then means that it wasn't
    /// written whole: cut the journal before it.
    std::size_t resume(std::string_view text) {
        sip_ua_resumed resumed{};
        check(sip_ua_resume(&agent, text.empty() ? "" : text.data(), text.size(), &resumed));
        return resumed.len;
    }

private:
    static constexpr sip_ua none = SIP_UA_NONE;

    static void check(std::uint32_t status) {
        if (status != SIP_UA_OK)
            throw Error(status);
    }

    static sip_ua_bytes bytes(std::string_view text) { return {text.data(), text.size()}; }

    static std::string string(sip_ua_bytes text) {
        return std::string(static_cast<const char *>(text.at), text.len);
    }

    static std::vector<sip_ua_header> headers_of(const std::vector<Header> &given) {
        std::vector<sip_ua_header> headers;
        for (const Header &header : given)
            headers.push_back({bytes(header.name), bytes(header.value)});
        return headers;
    }

    template <class Call, class Fields> Id asked(Call call, const Fields &fields) {
        sip_ua_asked told;
        const std::uint32_t status = call(&agent, &fields, &told);
        if (status != SIP_UA_OK)
            throw Error(status, told.bad_field);
        return told.id;
    }

    // The text that a call writes, with the length that it tells. The buffer grows for it.
    template <class Call, class Length> std::string text_of(Call call, Length length) {
        std::uint32_t status = call(buffer.data(), buffer.size());
        if (status == SIP_UA_NO_ROOM) {
            buffer.resize(length());
            status = call(buffer.data(), buffer.size());
        }
        check(status);
        return std::string(reinterpret_cast<const char *>(buffer.data()), length());
    }

    // The lines of a text, each without the line feed that ends it.
    static std::vector<std::string> lines_of(std::string_view text) {
        std::vector<std::string> lines;
        while (!text.empty()) {
            const std::size_t end = text.find('\n');
            lines.emplace_back(text.substr(0, end));
            text.remove_prefix(end + 1);
        }
        return lines;
    }

    std::optional<Output> next_output() {
        sip_ua_output output;
        std::string text = text_of(
            [&](std::uint8_t *room, std::size_t size) {
                return sip_ua_next_line(&agent, &output, room, size);
            },
            [&] { return output.len; });
        if (output.kind == SIP_UA_NOTHING)
            return std::nullopt;
        std::optional<Address> to;
        if (output.kind == SIP_UA_SEND)
            to = output.to;
        return Output{output.index, to, std::move(text), output.place};
    }

    sip_ua agent = SIP_UA_NONE;
    std::vector<std::uint8_t> buffer;
};

} // namespace sip

#endif
