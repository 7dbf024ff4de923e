// Journals for C++17 and POSIX: the rounds of an agent, from which another process goes on when
// this one has died.
//
//     sip::Journal journal("calls.journal");
//     sip::Resumed begun = journal.resume(local);    // tell its notices again, and send nothing
//     ..
//     const auto outputs = begun.agent.run(moment);  // in ms since 1970, never going back
//     journal.append(begun.agent);                   // before one of them is sent or told
//
// A journal is a session file, as `ua --journal` writes it (docs/FORMATS.md). It has the agent's
// seed: keep it secret. It only grows: once it is cut, before you open it, `ua compact` makes it
// shorter.
#ifndef SIP_UA_JOURNAL_HPP
#define SIP_UA_JOURNAL_HPP

#include "sip_ua.hpp"

#include <fcntl.h>
#include <sys/file.h>
#include <unistd.h>

#include <cerrno>
#include <random>
#include <system_error>

namespace sip {

/// A file that is no journal, or that of another agent.
struct JournalError : std::runtime_error {
    using std::runtime_error::runtime_error;
};

/// An agent that goes on. `outputs` are those of its last round, at `moment`: they may not have
/// been acted upon. It has no moment if it has had no round.
struct Resumed {
    Agent agent;
    std::optional<std::uint64_t> moment;
    std::vector<TypedOutput> outputs;
};

/// A journal in a file. With `is_synced`, each round waits for the disk: then a power cut loses
/// nothing, either. Faults of the file are a std::system_error.
class Journal {
public:
    /// Opens or makes the file. It is a fault if it is open already, in another process or in this
    /// one, or if the path is a symbolic link: whoever planted it would get the seed.
    explicit Journal(const std::string &path, bool is_synced = false)
        : file(open(path.c_str(), O_RDWR | O_CREAT | O_APPEND | O_NOFOLLOW | O_CLOEXEC, 0600)),
          is_synced(is_synced) {
        must(file >= 0, path.c_str());
        if (flock(file, LOCK_EX | LOCK_NB) != 0) {
            const int fault = errno;
            close(file);
            throw std::system_error(fault, std::generic_category(), path);
        }
    }

    Journal(const Journal &) = delete;
    Journal &operator=(const Journal &) = delete;
    ~Journal() { close(file); }

    /// The agent of the journal, which has to be of the same address; a new one with a seed of its
    /// own, if the journal is empty. A last round that was torn is cut off.
    Resumed resume(const Address &local, std::size_t shards = 1) {
        const std::string text = read();
        Configuration configuration = {local, {}, 0};
        if (text.empty())
            return {begin(configuration, shards), std::nullopt, {}};
        const std::size_t head = read_head(text, configuration);
        Agent agent(configuration, shards);
        const auto [last, end] = last_round(text, head);
        std::string_view before = std::string_view(text).substr(head, last - head);
        while (!before.empty())
            before.remove_prefix(agent.resume(before));
        if (last == end) {
            cut(end);
            return {std::move(agent), std::nullopt, {}};
        }
        const std::size_t events = text.find('\n', last) + 1, number = last + round.size();
        const std::uint64_t moment = number_of(text.substr(number, events - 1 - number));
        const std::size_t whole = add_events(agent, text, events, end);
        auto outputs = agent.run(moment);
        cut(whole);
        return {std::move(agent), moment, std::move(outputs)};
    }

    /// Keeps the agent's last round, by one write. After a fault, send and tell nothing of the
    /// round, and end: what the journal doesn't have can't be resumed.
    void append(Agent &agent) { write(agent.round_text()); }

private:
    static constexpr std::string_view round = "round ", digits = "0123456789abcdef";

    static void must(bool is_so, const char *what = "journal") {
        if (!is_so)
            throw std::system_error(errno, std::generic_category(), what);
    }

    std::string read() {
        std::string text;
        for (char part[65536];;) {
            const ssize_t size = pread(file, part, sizeof part, static_cast<off_t>(text.size()));
            must(size >= 0);
            if (size == 0)
                return text;
            text.append(part, static_cast<std::size_t>(size));
        }
    }

    void write(std::string_view text) {
        const ssize_t size = ::write(file, text.data(), text.size());
        must(size >= 0);
        if (static_cast<std::size_t>(size) < text.size())
            throw std::system_error(ENOSPC, std::generic_category(), "journal");
        must(!is_synced || fsync(file) == 0);
    }

    void cut(std::size_t size) { must(ftruncate(file, static_cast<off_t>(size)) == 0); }

    static std::string text_of(const Address &address) {
        const std::uint8_t *ip = address.ip;
        return std::to_string(ip[0]) + "." + std::to_string(ip[1]) + "." + std::to_string(ip[2])
            + "." + std::to_string(ip[3]) + ":" + std::to_string(address.port);
    }

    Agent begin(Configuration configuration, std::size_t shards) {
        std::random_device device;
        std::string seed;
        for (std::uint8_t &byte : configuration.seed) {
            byte = static_cast<std::uint8_t>(device());
            for (const std::size_t digit : {byte / 16, byte % 16})
                seed += digits[digit];
        }
        write("sip-session 1\nlocal " + text_of(configuration.local) + "\nseed " + seed
              + "\nfirst 0\n");
        return Agent(configuration, shards);
    }

    // A number of at most 19 digits, as all are that a journal has.
    static std::uint64_t number_of(const std::string &text) {
        if (text.empty() || text.size() > 19
            || text.find_first_not_of(digits.substr(0, 10)) != std::string::npos)
            throw JournalError("not a journal");
        return std::stoull(text);
    }

    // Reads the seed and the number of the first round. Returns the bytes of the head.
    static std::size_t read_head(const std::string &text, Configuration &configuration) {
        std::size_t at = 0;
        const auto line = [&](std::string_view word) {
            const std::size_t end = text.find('\n', at);
            if (end == std::string::npos || text.compare(at, word.size(), word) != 0)
                throw JournalError("not a journal");
            const std::size_t begin = std::exchange(at, end + 1) + word.size();
            return text.substr(begin, end - begin);
        };
        const std::string version = line("sip-session "), address = line("local "),
                          seed = line("seed "), first = line("first ");
        if (version != "1" || seed.size() != 2 * sizeof configuration.seed
            || seed.find_first_not_of(digits) != std::string::npos)
            throw JournalError("not a journal");
        if (address != text_of(configuration.local))
            throw JournalError("the journal is of " + address);
        for (std::size_t byte = 0; byte < sizeof configuration.seed; byte++)
            configuration.seed[byte] =
                static_cast<std::uint8_t>(std::stoi(seed.substr(2 * byte, 2), nullptr, 16));
        configuration.first = number_of(first);
        return at;
    }

    // Where the last round before an end begins, if there is one.
    static std::optional<std::size_t> round_before(const std::string &text, std::size_t end) {
        const std::size_t found = text.rfind("\nround ", end - 2);
        return found == std::string::npos ? std::nullopt : std::optional(found + 1);
    }

    // Where the last round begins and ends; if there is none, the end twice. One that ends within
    // its first line or within an event was torn: it had no effect, and isn't the last.
    static std::pair<std::size_t, std::size_t> last_round(const std::string &text,
                                                          std::size_t head) {
        std::size_t end = text.rfind('\n') + 1;
        const std::string_view tail = std::string_view(text).substr(end);
        const bool is_between = tail.substr(0, round.size()) == round.substr(0, tail.size());
        if (!is_between || text[text.rfind('\n', end - 2) + 1] == ' ') {
            const auto torn = round_before(text, end);
            if (!torn)
                throw JournalError("not a journal");
            end = *torn;
        }
        const std::size_t last = round_before(text, end).value_or(end);
        if (last == end && end != head)
            throw JournalError("not a journal");
        return {last, end};
    }

    // Gives the events of a round to the agent again. Returns where the last whole one ends.
    static std::size_t add_events(Agent &agent, const std::string &text, std::size_t begin,
                                  std::size_t end) {
        std::size_t whole = begin;
        for (std::size_t line = whole; line < end;) {
            const std::size_t next = text.find('\n', line) + 1;
            if (text[line] != ' ') { // a header line belongs to the command after it
                try {
                    agent.event_lines(std::string_view(text).substr(whole, next - 1 - whole));
                } catch (const Error &error) {
                    if (error.status != SIP_UA_BAD_LINE)
                        throw;
                    break;
                }
                whole = next;
            }
            line = next;
        }
        return whole;
    }

    int file;
    bool is_synced;
};

} // namespace sip

#endif
