// Replays an event file or a session file through the class of C++, and writes its output file:
// each command is asked for by its struct, and each output told by its fields.
// `typed < EVENTS > OUTPUTS`; docs/FORMATS.md has the forms.
#include "sip_ua.hpp"

#include <algorithm>
#include <cstdio>
#include <iostream>
#include <optional>
#include <string>
#include <vector>

using Fields = std::vector<std::string>;

// The fields of a line between single spaces, at most so many, of which the last has the rest.
static Fields split(const std::string &line, std::size_t most) {
    Fields fields;
    std::size_t start = 0;
    while (fields.size() + 1 < most) {
        const std::size_t end = line.find(' ', start);
        if (end == std::string::npos)
            break;
        fields.push_back(line.substr(start, end - start));
        start = end + 1;
    }
    fields.push_back(line.substr(start));
    return fields;
}

// The bytes that a rest spells.
static std::string unspelled(const std::string &rest) {
    static const std::string letters = "srnt\\", bytes = " \r\n\t\\";
    std::string text;
    for (std::size_t at = 0; at < rest.size(); at++) {
        if (rest[at] != '\\') {
            text += rest[at];
        } else if (rest.at(++at) == 'x') {
            text += static_cast<char>(std::stoi(rest.substr(at + 1, 2), nullptr, 16));
            at += 2;
        } else {
            text += bytes.at(letters.find(rest[at]));
        }
    }
    return text;
}

static std::string unspelled_word(const std::string &word) {
    return word == "-" ? "" : unspelled(word);
}

// Bytes as a rest, or as a word where spaces are spelled too.
static std::string spelled(const std::string &text, bool spells_space) {
    static const std::string letters = "rnt\\", bytes = "\r\n\t\\";
    std::string rest;
    for (const unsigned char byte : text) {
        const std::size_t found = bytes.find(static_cast<char>(byte));
        char hexadecimal[5];
        std::snprintf(hexadecimal, sizeof hexadecimal, "\\x%02x", byte);
        if (found != std::string::npos)
            rest += std::string("\\") + letters[found];
        else if (byte == ' ' && spells_space)
            rest += "\\s";
        else if (byte >= ' ' && byte <= '~')
            rest += static_cast<char>(byte);
        else
            rest += hexadecimal;
    }
    return rest;
}

static std::string word(const std::string &text) {
    return text.empty() ? "-" : text == "-" ? "\\x2d" : spelled(text, true);
}

static sip::Address address(const std::string &field) {
    unsigned a, b, c, d, port;
    if (std::sscanf(field.c_str(), "%u.%u.%u.%u:%u", &a, &b, &c, &d, &port) != 5)
        throw std::runtime_error("no address: " + field);
    const auto byte = [](unsigned number) { return static_cast<std::uint8_t>(number); };
    return {{byte(a), byte(b), byte(c), byte(d)}, static_cast<std::uint16_t>(port)};
}

static sip::Id id(const std::string &field) {
    const std::size_t dot = field.find('.');
    return {true, static_cast<std::uint32_t>(std::stoul(field.substr(dot + 1))),
            std::stoull(field.substr(0, dot))};
}

// A header line: its name and its value without the blanks round them.
struct GivenHeader {
    explicit GivenHeader(const std::string &line) {
        const std::string text = unspelled(line.substr(1));
        const std::size_t colon = text.find(':');
        name = stripped(text.substr(0, colon));
        value = stripped(text.substr(colon + 1));
    }

    std::string name;
    std::string value;

private:
    static std::string stripped(const std::string &text) {
        const std::size_t first = text.find_first_not_of(" \t");
        if (first == std::string::npos)
            return "";
        return text.substr(first, text.find_last_not_of(" \t") - first + 1);
    }
};

static std::vector<sip::Header> headers_of(const std::vector<GivenHeader> &given) {
    std::vector<sip::Header> headers;
    for (const GivenHeader &header : given)
        headers.push_back({header.name, header.value});
    return headers;
}

// Asks for the command of a line by its fields. What no call takes so stays a line: a status that
// isn't 101 to 699, and an event that is no command.
static void ask(sip::Agent &agent, const std::string &line, const std::vector<GivenHeader> &given) {
    const std::string keyword = line.substr(0, line.find(' '));
    const auto headers = headers_of(given);
    Fields f = split(line, keyword == "respond" ? 7 : 99);
    if (keyword == "respond") {
        const std::string call_id = unspelled_word(f[1]), body = unspelled_word(f[5]),
                          reason = unspelled(f[6]);
        const int status = std::stoi(f[3]);
        if (status < 101 || status > 699)
            agent.event_line(line);
        else
            agent.respond({call_id, id(f[2]), static_cast<std::uint16_t>(status), reason,
                           f[4] == "reliable", body, headers});
        return;
    }
    if (keyword == "datagram" || keyword == "failed") {
        agent.event_line(line);
        return;
    }
    Fields texts(f);
    std::transform(f.begin(), f.end(), texts.begin(), unspelled_word);
    if (keyword == "invite")
        agent.invite({texts[1], address(f[2]), texts[3], texts[4], texts[5], f[6] == "supported",
                      f[6] == "required", texts[7], headers});
    else if (keyword == "plain")
        agent.plain({texts[1], address(f[2]), texts[3], texts[4], texts[5], texts[6], texts[7],
                     headers});
    else if (keyword == "request")
        agent.request({texts[1], texts[2], texts[3], texts[4], texts[5], headers});
    else if (keyword == "ack")
        agent.ack({texts[1], texts[2], texts[3], texts[4], headers});
    else if (keyword == "prack")
        agent.prack({texts[1], texts[2], texts[3], texts[4], headers});
    else if (keyword == "cancel")
        agent.cancel(texts[1], id(f[2]));
    else if (keyword == "abandon" && f.size() == 3)
        agent.abandon(texts[1], id(f[2]));
    else if (keyword == "abandon")
        agent.abandon(texts[1], texts[2], texts[3]);
    else
        throw std::runtime_error("no command: " + line);
}

static std::string spelled_id(const sip::Id &id) {
    return std::to_string(id.round) + "." + std::to_string(id.place);
}

static std::string notice(const sip::TypedOutput &told) {
    const sip_ua_typed_output &numbers = told.numbers;
    const std::string id = spelled_id(numbers.id), body = word(told.body),
                      tags = word(told.local_tag) + " " + word(told.remote_tag);
    switch (numbers.kind) {
    case SIP_UA_NOTICE_REQUEST:
        return "request " + id + " " + told.method + " " + tags + " " + body;
    case SIP_UA_NOTICE_RESPONSE:
        return "response " + id + " " + std::to_string(numbers.status) + " " + tags + " " + body;
    case SIP_UA_NOTICE_ACK: return "ack " + id + " " + body;
    case SIP_UA_NOTICE_PRACK:
        return "prack " + id + " " + std::to_string(numbers.rseq) + " " + body;
    case SIP_UA_NOTICE_TIMEOUT: return "timeout " + id;
    case SIP_UA_NOTICE_FAILED: return "failed " + id;
    case SIP_UA_NOTICE_NO_ACK: return "noack " + id;
    case SIP_UA_NOTICE_NO_PRACK: return "noprack " + id;
    case SIP_UA_NOTICE_CANCEL: return "cancel " + id;
    case SIP_UA_NOTICE_ENDED: return "ended " + tags;
    case SIP_UA_NOTICE_REFUSED:
        return "refused " + std::to_string(numbers.command) + " " + std::to_string(numbers.refusal);
    default: throw std::runtime_error("a kind that is none");
    }
}

// The line of an output that is told by its fields.
static std::string written(const sip::TypedOutput &told) {
    static const char *const reasons[] = {
        "", "NotOurs", "NoTransaction", "TooLong", "NoEmptyLine", "BadStartLine", "BadHeader",
        "Missing", "Repeated", "BadNumber", "OldBranch", "MethodMismatch", "Truncated", "NoMemory"};
    const sip_ua_typed_output &numbers = told.numbers;
    if (numbers.kind == SIP_UA_SEND) {
        const std::uint8_t *ip = numbers.to.ip;
        char to[32];
        std::snprintf(to, sizeof to, "%u.%u.%u.%u:%u", ip[0], ip[1], ip[2], ip[3],
                      static_cast<unsigned>(numbers.to.port));
        return std::string("send ") + to + " " + spelled(told.body, false);
    }
    if (numbers.kind == SIP_UA_DROP) {
        const std::string header = sip_ua_header_text(numbers.header);
        return "drop " + std::to_string(numbers.place) + " " + reasons[numbers.reason]
            + (header.empty() ? "" : " " + header);
    }
    return "notice " + word(told.call_id) + " " + notice(told);
}

static void run(sip::Agent &agent, std::uint64_t moment) {
    std::cout << "round " << moment << "\n";
    for (const sip::TypedOutput &output : agent.run(moment))
        std::cout << written(output) << "\n";
}

// A line before the first round.
static void configure(sip::Configuration &configuration, const std::string &line) {
    const Fields fields = split(line, 2);
    if (fields[0] == "local")
        configuration.local = address(fields[1]);
    else if (fields[0] == "first")
        configuration.first = std::stoull(fields[1]);
    else if (fields[0] == "seed")
        for (std::size_t at = 0; at < sizeof configuration.seed; at++)
            configuration.seed[at] =
                static_cast<std::uint8_t>(std::stoi(fields[1].substr(2 * at, 2), nullptr, 16));
}

static void replay() {
    sip::Configuration configuration = {};
    std::optional<sip::Agent> agent;
    std::vector<GivenHeader> headers;
    std::uint64_t moment = 0;
    std::cout << "sip-outputs 1\n";
    for (std::string line; std::getline(std::cin, line);) {
        if (line.rfind("round ", 0) == 0) {
            if (agent)
                run(*agent, moment);
            else
                agent.emplace(configuration);
            moment = std::stoull(line.substr(6));
        } else if (!agent) {
            configure(configuration, line);
        } else if (line.rfind(' ', 0) == 0) {
            headers.emplace_back(line);
        } else {
            ask(*agent, line, headers);
            headers.clear();
        }
    }
    if (agent)
        run(*agent, moment);
}

int main() {
    try {
        replay();
    } catch (const std::exception &error) {
        std::cerr << "typed: " << error.what() << "\n";
        return 1;
    }
    return 0;
}
