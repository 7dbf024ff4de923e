// Tries the class: a call with one datagram, a moved agent, and faults.
#include "sip_ua.hpp"

#include <chrono>
#include <iostream>
#include <set>
#include <unordered_set>

static int faults = 0;

static void expect(bool holds, const char *what) {
    if (!holds) {
        std::cerr << "check.cpp: " << what << "\n";
        faults++;
    }
}

template <class Call> static void expect_status(std::uint32_t status, const char *what, Call call) {
    try {
        call();
        expect(false, what);
    } catch (const sip::Error &error) {
        expect(error.status == status, what);
    }
}

// Ids are keys of maps of both kinds. The order is that of their events.
static void ids() {
    const sip::Id first = {true, 2, 1}, second = {true, 1, 2}, third = {true, 2, 2}, none = {};
    const std::set<sip::Id> ordered = {third, first, none, second, first};
    const std::unordered_set<sip::Id> hashed(ordered.begin(), ordered.end());
    expect(std::vector<sip::Id>(ordered.begin(), ordered.end())
               == std::vector<sip::Id>{none, first, second, third}, "ids in order");
    expect(hashed.size() == 4 && hashed.count({true, 1, 2}) == 1, "ids by their hash");
    expect(first != second && !(first != sip::Id{true, 2, 1}), "ids differ");
}

// Commands and outputs by their fields.
static void typed(sip::Agent &agent) {
    const sip::Address peer = {{192, 0, 2, 9}, 5060};
    const char *uri = "sip:b@192.0.2.9";
    agent.run_lines(10);
    const auto id = agent.invite(
        {"c2", peer, uri, "sip:a@192.0.2.1", uri, true, false, "v=0\r\n", {{"Subject", "one"}}});
    expect(id.is_given && id.place == 1, "the id of an INVITE");
    expect(agent.stats().events == 1, "an event waits");
    agent.plain({"c3", peer, "OPTIONS", uri, uri, uri});
    agent.request({"c4", "a", "b", "BYE"});
    agent.respond({"c4", id, 200, "OK"});
    agent.ack({"c4", "a", "b"});
    agent.prack({"c4", "a", "b"});
    agent.cancel("c4", id);
    agent.abandon("c4", id);
    agent.abandon("c4", "a", "b");
    const auto told = agent.run(11);
    const std::string from = ";tag=" + agent.opening_tag(id) + "\r\n";
    std::size_t refused = 0, sent = 0;
    for (const auto &output : told) {
        refused += output.numbers.kind == SIP_UA_NOTICE_REFUSED && output.call_id == "c4"
            && output.numbers.refusal == SIP_UA_REFUSAL_NO_SUCH_CALL;
        sent += output.numbers.kind == SIP_UA_SEND
            && output.body.find("\r\nSubject: one\r\n") != std::string::npos
            && output.body.find(from) != std::string::npos;
    }
    expect(refused == 7, "commands of no call are refused");
    expect(sent == 1, "the INVITE has its header and its tag");
    expect(agent.stats().calls >= 2, "two calls are held");
    try {
        agent.request({"c4", "a b", "", "BYE"});
        expect(false, "a bad tag");
    } catch (const sip::Error &error) {
        expect(error.status == SIP_UA_BAD_FIELD && error.bad_field == SIP_UA_FIELD_LOCAL_TAG,
               "which field is bad");
        expect(error.what() == std::string("sip_ua: a field of the command is bad: local_tag"),
               "its name");
    }
    sip_ua none = SIP_UA_NONE;
    sip_ua_asked asked;
    const sip_ua_cancel_fields empty = {{nullptr, 1}, id};
    expect(sip_ua_cancel(&none, &empty, &asked) == SIP_UA_NULL, "no text");
    const sip_ua_cancel_fields given = {sip_ua_string("c"), id};
    expect(sip_ua_cancel(&none, &given, nullptr) == SIP_UA_NO_AGENT, "no agent");
}

// Addresses in the values of headers.
static void addresses() {
    const auto party = sip::party_in("\"Bob \\\"B\\\"\" <sip:b@192.0.2.9>;tag=t1;x", "TAG");
    expect(party && party->display == "Bob \"B\"" && party->uri == "sip:b@192.0.2.9"
               && party->value == "t1", "a party with its tag");
    const auto other = sip::party_in("Mr. B, the second <sip:b@192.0.2.9>", "tag");
    expect(other && other->display == "Mr. B, the second" && !other->value,
           "a party without a tag");
    const char *contacts = "<sip:a,b>, \"x,y\" <sip:c;p>;q=\"0.5\";empty";
    const auto second = sip::address_in(contacts, "q", 1);
    expect(second && second->display == "x,y" && second->uri == "sip:c;p" && second->value == "0.5",
           "the second address of a list");
    expect(sip::address_in(contacts, "empty", 1)->value == "", "a parameter without a value");
    expect(!sip::address_in(contacts, "q", 2), "no third address");
    expect(!sip::address_in("<sip:a", "q"), "no address");
    sip_ua_address_lengths told;
    uint8_t room[4];
    expect(sip_ua_party_in(sip_ua_string("<sip:b@h>;tag=t"), "tag", &told, room, 4)
               == SIP_UA_NO_ROOM && told.uri_len == 7 && told.value_len == 1, "no room");
    expect(sip_ua_party_in(sip_ua_string("<sip:b@h>"), nullptr, &told, nullptr, 0)
               == SIP_UA_NO_ROOM && !told.has_parameter, "no parameter is asked for");
}

// A datagram whose 100 is too long for UDP: it comes whole, fails, and the agent goes on.
static void long_sends(sip::Agent &agent) {
    std::string invite = "INVITE sip:a@192.0.2.1 SIP/2.0\r\nVia: SIP/2.0/UDP h;branch=z9hG4bKx";
    for (int i = 0; i < 4500; i++)
        invite += ",SIP/2.0/UDP a";
    invite += "\r\nMax-Forwards: 70\r\nFrom: <sip:b@192.0.2.9>;tag=f1\r\nTo: <sip:a@192.0.2.1>\r\n"
              "Call-ID: c9\r\nCSeq: 1 INVITE\r\nContact: <sip:b@192.0.2.9>\r\n\r\n";
    agent.datagram({{192, 0, 2, 9}, 5060}, invite);
    const auto came = agent.run_lines(12);
    std::size_t failed = 0;
    for (const auto &output : came)
        if (output.to && output.text.size() > SIP_UA_LARGEST_DATAGRAM) {
            failed += output.text.rfind("SIP/2.0 100 ", 0) == 0
                && output.text.find("\r\n\r\n") == output.text.size() - 4;
            agent.failed(output.index);
        }
    expect(failed == 1, "a long send comes whole");
    expect(agent.datagram_at(1)->bytes == invite, "so does its cause");
    bool is_told = false;
    for (const auto &output : agent.run(13))
        is_told = is_told || output.numbers.kind == SIP_UA_NOTICE_FAILED;
    expect(is_told, "its failure is told");
}

// All values of a header that stands in as many lines as a datagram holds, and all its lines: each
// by one reading.
static void many_headers(sip::Agent &agent) {
    std::string request = "OPTIONS sip:a@192.0.2.1 SIP/2.0\r\n";
    for (int i = 0; i < 16000; i++)
        request += "a:\r\n";
    agent.datagram({{192, 0, 2, 9}, 5060}, request + "A: \r\n last\r\nb:x:y\r\n\r\n");
    agent.run_lines(14);
    const auto begin = std::chrono::steady_clock::now();
    const auto values = agent.header_values(1, "A");
    const auto lines = agent.header_lines(1);
    expect(std::chrono::steady_clock::now() - begin < std::chrono::seconds(1), "in time");
    expect(values.size() == 16001 && values[0].empty() && values.back() == "last", "all values");
    expect(lines.size() == 16002 && lines[16000] == std::pair<std::string, std::string>("A", "last")
               && lines.back() == std::pair<std::string, std::string>("b", "x:y"), "all lines");
    expect(agent.header_values(1, "c").empty() && agent.header_lines(2).empty(), "none");
}

int main() {
    addresses();
    ids();
    const sip::Configuration configuration = {{{192, 0, 2, 1}, 5060}, {}, 0};
    const sip::Address from = {{192, 0, 2, 9}, 5060};
    const std::string options = "OPTIONS sip:a@192.0.2.1 SIP/2.0\r\n"
                                "Via: SIP/2.0/UDP 192.0.2.9;branch=z9hG4bK1\r\n"
                                "Max-Forwards: 70\r\nFrom: <sip:b@192.0.2.9>;tag=f1\r\n"
                                "To: <sip:a@192.0.2.1>\r\nCall-ID: c1\r\nCSeq: 1 OPTIONS\r\n"
                                "Content-Length: 0\r\n\r\n";
    sip::Agent first(configuration);
    expect(!first.next_due(), "nothing is due of a new agent");
    first.datagram(from, options);
    sip::Agent agent(std::move(first));
    expect_status(SIP_UA_NO_AGENT, "moved from", [&] { first.run_lines(0); });
    expect_status(SIP_UA_NO_AGENT, "a question of it", [&] { first.start_line(1); });
    auto told = agent.run_lines(0);
    expect(told.size() == 1 && !told[0].to, "a request is told");
    expect(told[0].place == 1, "by its place");
    const auto start = agent.start_line(1);
    expect(start && start->method == "OPTIONS", "its method");
    expect(start && start->uri == "sip:a@192.0.2.1", "its Request-URI");
    expect(!agent.start_line(2), "no datagram");
    const auto traits = agent.request_traits(1);
    expect(traits && !traits->is_in_dialog && !traits->supports_100rel, "a request's traits");
    expect(!agent.request_traits(2), "no request, no traits");
    expect(agent.header_values(1, "f") == std::vector<std::string>{"<sip:b@192.0.2.9>;tag=f1"},
           "the values of a header");
    const auto line = agent.header_line(1, 2);
    expect(line && line->first == "From" && line->second == "<sip:b@192.0.2.9>;tag=f1",
           "a header line by its number");
    expect(!agent.header_line(1, 7), "no header line after the last");
    const auto lines = agent.header_lines(1);
    expect(lines.size() == 7 && lines[2] == *line, "all header lines");
    expect(!agent.would_begin(options), "a request that is held begins nothing");
    std::string other = options;
    other.replace(other.find("z9hG4bK1"), 8, "z9hG4bK2");
    expect(agent.would_begin(other), "a request of another branch would begin a transaction");
    other.replace(0, 7, "ACK");
    other.replace(other.find("1 OPTIONS"), 9, "1 ACK");
    expect(!agent.would_begin(other), "an ACK begins nothing");
    const auto came = agent.datagram_at(1);
    expect(came && came->bytes == options && came->from.port == 5060, "the datagram");
    expect(!agent.last_id(), "no event was given");
    agent.event_lines(" Allow: INVITE, ACK, BYE\nrespond c1 0.1 200 plain - OK");
    const auto id = agent.last_id();
    expect(id && id->round == 1 && id->place == 1, "the id of a command");
    auto sent = agent.run_lines(5);
    expect(sent.size() == 1 && sent[0].to && sent[0].text.rfind("SIP/2.0 200 OK\r\n", 0) == 0,
           "the answer is sent");
    expect(sent[0].text.find("\r\nAllow: INVITE, ACK, BYE\r\n") != std::string::npos,
           "with its header");
    expect(agent.next_due().has_value(), "the end of the transaction is due");
    for (const bool is_elsewhere : {false, true}) {
        sip::Address source = came->from;
        source.ip[3] ^= is_elsewhere;
        agent.datagram(source, options);
        const auto again = agent.run(5);
        expect(again.size() == 1 && agent.is_reflected(again[0]) == is_elsewhere,
               "a repeat from the same address, and from another one");
    }
    expect_status(SIP_UA_BACKWARDS, "a moment that goes back", [&] { agent.run_lines(4); });
    expect_status(SIP_UA_MOMENT_TOO_LARGE, "a moment above 2^62",
                  [&] { agent.run_lines(UINT64_MAX); });
    expect_status(SIP_UA_BAD_LINE, "no line", [&] { agent.event_line("hello"); });
    expect_status(SIP_UA_BAD_LINE, "an empty line", [&] { agent.event_line(""); });
    expect_status(SIP_UA_NO_SEND, "no send", [&] { agent.failed(7); });
    agent.failed(0);
    typed(agent);
    long_sends(agent);
    many_headers(agent);
    agent.close();
    expect_status(SIP_UA_NO_AGENT, "closed twice", [&] { agent.close(); });
    expect_status(SIP_UA_BAD_CONFIGURATION, "no shard", [&] { sip::Agent none(configuration, 0); });
    std::cout << (faults == 0 ? "class: passed\n" : "class: FAILED\n");
    return faults == 0 ? 0 : 1;
}
