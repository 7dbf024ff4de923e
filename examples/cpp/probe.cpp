// Asks a peer by OPTIONS whether it is there, and prints its answer and the methods that it allows.
// Its status is 0 if the peer answered.
//
//     probe IP PORT PEER-IP PEER-PORT
#include "sip_ua.hpp"

#include <arpa/inet.h>
#include <poll.h>
#include <sys/socket.h>
#include <unistd.h>

#include <algorithm>
#include <cerrno>
#include <charconv>
#include <chrono>
#include <cstring>
#include <iostream>
#include <random>
#include <system_error>

static sip::Address address(const char *ip, const char *port) {
    sip::Address given = {};
    const char *end = port + std::strlen(port);
    const auto read = std::from_chars(port, end, given.port);
    if (inet_pton(AF_INET, ip, given.ip) != 1 || read.ptr != end || read.ec != std::errc())
        throw std::runtime_error(std::string("not an address: ") + ip + " " + port);
    return given;
}

static std::string text_of(const sip::Address &given) {
    char ip[INET_ADDRSTRLEN];
    inet_ntop(AF_INET, given.ip, ip, sizeof ip);
    return ip + (":" + std::to_string(given.port));
}

static std::uint64_t now() {
    const auto since = std::chrono::steady_clock::now().time_since_epoch();
    return std::chrono::duration_cast<std::chrono::milliseconds>(since).count();
}

// A socket that sends to one peer, and receives from it alone. Then a port that nobody has is an
// error, too.
class Socket {
public:
    Socket(const sip::Address &local, const sip::Address &to)
        : peer(to), udp(socket(AF_INET, SOCK_DGRAM, 0)) {
        const sockaddr_in here = raw(local), there = raw(peer);
        must(bind(udp, reinterpret_cast<const sockaddr *>(&here), sizeof here));
        must(connect(udp, reinterpret_cast<const sockaddr *>(&there), sizeof there));
    }

    Socket(const Socket &) = delete;
    Socket &operator=(const Socket &) = delete;
    ~Socket() { close(udp); }

    bool send(std::string_view bytes) { return ::send(udp, bytes.data(), bytes.size(), 0) >= 0; }

    // The next datagram, if one comes within so many ms.
    std::optional<std::string> receive(std::uint64_t wait) {
        pollfd waited = {udp, POLLIN, 0};
        if (must(poll(&waited, 1, static_cast<int>(std::min<std::uint64_t>(wait, 60000)))) == 0)
            return std::nullopt;
        std::string bytes(65536, '\0');
        bytes.resize(must(recv(udp, bytes.data(), bytes.size(), 0)));
        return bytes;
    }

    const sip::Address peer;

private:
    static ssize_t must(ssize_t result) {
        if (result < 0)
            throw std::system_error(errno, std::generic_category());
        return result;
    }

    static sockaddr_in raw(const sip::Address &given) {
        sockaddr_in result = {};
        result.sin_family = AF_INET;
        result.sin_port = htons(given.port);
        std::memcpy(&result.sin_addr, given.ip, sizeof given.ip);
        return result;
    }

    int udp;
};

static sip::Agent agent_at(const sip::Address &local) {
    sip::Configuration configuration = {local, {}, 0};
    std::generate(std::begin(configuration.seed), std::end(configuration.seed),
                  std::random_device());
    return sip::Agent(configuration);
}

// Runs a round, and returns the notice that ends the request, if it tells one.
static std::optional<sip::TypedOutput> run(sip::Agent &agent, Socket &udp, const sip::Id &request) {
    std::optional<sip::TypedOutput> outcome;
    for (const sip::TypedOutput &output : agent.run(now())) {
        const bool is_provisional =
            output.numbers.kind == SIP_UA_NOTICE_RESPONSE && output.numbers.status < 200;
        if (output.numbers.kind == SIP_UA_SEND) {
            if (!udp.send(output.body))
                agent.failed(output.numbers.index);
        } else if (output.numbers.id == request && !is_provisional) {
            outcome = output;
        }
    }
    return outcome;
}

// Waits until something comes or is due. An event that waits is due at once.
static void wait(sip::Agent &agent, Socket &udp) {
    const std::uint64_t moment = now(), due = agent.next_due().value_or(moment);
    const bool has_events = agent.stats().events > 0;
    const auto bytes = udp.receive(has_events || due < moment ? 0 : due - moment);
    if (bytes)
        agent.datagram(udp.peer, *bytes);
}

static bool probe(const sip::Address &local, const sip::Address &peer) {
    Socket udp(local, peer);
    sip::Agent agent = agent_at(local);
    const std::string uri = "sip:" + text_of(peer), from = "sip:probe@" + text_of(local);
    const sip::Id request = agent.plain({"probe", peer, "OPTIONS", uri, from, uri});
    for (;;) {
        const auto outcome = run(agent, udp, request);
        if (outcome && outcome->numbers.kind == SIP_UA_NOTICE_RESPONSE) {
            const auto start = agent.start_line(outcome->numbers.place);
            std::cout << start->status << " " << start->reason << "\n";
            for (const std::string &methods : agent.header_values(outcome->numbers.place, "Allow"))
                std::cout << "it allows " << methods << "\n";
            return true;
        }
        if (outcome) {
            std::cout << "no answer\n";
            return false;
        }
        wait(agent, udp);
    }
}

int main(int count, char **words) {
    if (count != 5) {
        std::cerr << "usage: probe IP PORT PEER-IP PEER-PORT\n";
        return 2;
    }
    try {
        return probe(address(words[1], words[2]), address(words[3], words[4])) ? 0 : 1;
    } catch (const std::exception &error) {
        std::cerr << "probe: " << error.what() << "\n";
        return 1;
    }
}
