// Tries the journal of C++: it is torn at each place, and an agent goes on from it.
// `journal PATH`; it prints `journal: passed`.
#include "sip_ua_journal.hpp"

#include <filesystem>
#include <fstream>
#include <iostream>
#include <iterator>

static const sip::Address local = {{127, 0, 0, 1}, 5060};

static void must(bool is_so, const std::string &what) {
    if (!is_so)
        throw std::runtime_error(what);
}

static std::string read(const std::string &path) {
    std::ifstream file(path, std::ios::binary);
    return {std::istreambuf_iterator<char>(file), {}};
}

static void write(const std::string &path, const std::string &text) {
    std::ofstream(path, std::ios::binary | std::ios::trunc) << text;
}

static std::string options(const std::string &name) {
    return "OPTIONS sip:a@127.0.0.1 SIP/2.0\r\nVia: SIP/2.0/UDP 127.0.0.1;branch=z9hG4bK" + name
        + "\r\nFrom: <sip:b@127.0.0.1>;tag=f\r\nTo: <sip:a@127.0.0.1>\r\nCall-ID: " + name
        + "\r\nCSeq: 1 OPTIONS\r\n\r\n";
}

static bool starts(const std::string &text, const std::string &beginning) {
    return text.compare(0, beginning.size(), beginning) == 0;
}

// The head of a journal, the same with one and with two rounds, and the answer of the second round
// to the request of the first one; another request comes in it.
struct Journals {
    std::vector<std::string> texts;
    std::string answer;
};

static const std::string answering = " Allow: BYE\nrespond one 0.1 200 plain - OK";

static std::string sent(const std::vector<sip::TypedOutput> &outputs) {
    for (const sip::TypedOutput &output : outputs)
        if (output.numbers.kind == SIP_UA_SEND)
            return output.body;
    return "";
}

static Journals journals(const std::string &path) {
    write(path, "");
    sip::Journal journal(path);
    sip::Resumed begun = journal.resume(local);
    must(!begun.moment && begun.outputs.empty(), "a new agent has had no round");
    Journals made = {{read(path)}, ""};
    begun.agent.datagram(local, options("one"));
    begun.agent.run(10);
    journal.append(begun.agent);
    made.texts.push_back(read(path));
    begun.agent.datagram(local, options("two"));
    begun.agent.event_lines(answering);
    made.answer = sent(begun.agent.run(20));
    journal.append(begun.agent);
    made.texts.push_back(read(path));
    return made;
}

// An agent that goes on answers as the one before it would have, with the same tag. Its first round
// has the number that the head says.
static void the_same_agent(const std::string &path) {
    const Journals made = journals(path);
    std::string text = made.texts[1];
    write(path, text);
    {
        sip::Journal journal(path);
        sip::Resumed resumed = journal.resume(local);
        must(resumed.outputs.at(0).numbers.id == sip::Id{true, 1, 0}, "the id of a notice");
        resumed.agent.event_lines(answering);
        must(sent(resumed.agent.run(20)) == made.answer && !made.answer.empty(), "its answer");
    }
    write(path, text.replace(text.find("first 0"), 7, "first 7"));
    sip::Journal journal(path);
    must(journal.resume(local).outputs.at(0).numbers.id == sip::Id{true, 1, 7}, "its number");
}

// What stays of a journal with this text when an agent goes on from it. Each event of the last
// round has one output.
static std::string left_of(const std::string &path, const std::string &text) {
    write(path, text);
    sip::Journal journal(path);
    const sip::Resumed resumed = journal.resume(local);
    const std::string left = read(path);
    const std::size_t round = left.rfind("\nround ");
    must(resumed.moment.has_value() == (round != std::string::npos), "whether there is a round");
    if (resumed.moment) {
        const std::string lines = left.substr(round + 1);
        std::size_t events = 0;
        for (const char *word : {"\ndatagram ", "\nrespond "})
            events += lines.find(word) != std::string::npos;
        must(lines.rfind("round " + std::to_string(*resumed.moment) + "\n", 0) == 0, "its moment");
        must(resumed.outputs.size() == events, "its outputs");
    }
    return left;
}

static void torn_anywhere(const std::string &path) {
    const auto texts = journals(path).texts;
    for (std::size_t size = texts[0].size(); size <= texts[2].size(); size++) {
        const std::string torn = texts[2].substr(0, size), left = left_of(path, torn);
        must(starts(torn, left), "nothing is added");
        for (const std::string &whole : texts)
            must(!starts(torn, whole) || starts(left, whole), "a round that is whole stays");
        const bool is_cut = torn.back() != '\n' || torn[torn.rfind('\n', size - 2) + 1] == ' ';
        must(!is_cut || left == texts[0] || left == texts[1], "a torn round goes");
        must(is_cut || left == torn, "what has whole lines stays");
        must(left_of(path, left) == left, "what stays is whole");
    }
}

template <class Fault> static void fails(const char *what, const std::string &path) {
    try {
        sip::Journal journal(path);
        journal.resume(local);
    } catch (const Fault &) {
        return;
    }
    throw std::runtime_error(what);
}

static void faults(const std::string &path) {
    const auto texts = journals(path).texts;
    const std::string local_line = "sip-session 1\nlocal 127.0.0.1:5060\n";
    const std::string seed_line = "seed " + std::string(64, 'a') + "\n";
    for (const std::string &text :
         {std::string("hello\n"), std::string("sip-session 1\n"), local_line,
          local_line + seed_line, local_line + seed_line + "first 0",
          local_line + seed_line + "first \n", local_line + seed_line + "first 0x\n",
          local_line + "seed " + std::string(64, 'g') + "\nfirst 0\n",
          local_line + "seed aa\nfirst 0\n", "sip-session 2" + texts[0].substr(13)}) {
        write(path, text);
        fails<sip::JournalError>("not a journal", path);
    }
    for (const char *text : {"hello", "hello\n", "round \n", "round x\nhello\n", "round -1\n",
                             "round 99999999999999999999\n"}) {
        write(path, texts[0] + text);
        fails<sip::JournalError>("no round", path);
        must(read(path) == texts[0] + text, "nothing is cut");
    }
    write(path, texts[1] + "round 9\nhello\n");
    fails<sip::Error>("a moment that goes back", path);
    must(read(path) == texts[1] + "round 9\nhello\n", "it is not cut, either");
    write(path, texts[0] + "round 10\nhello\n" + texts[1].substr(texts[0].size()));
    fails<sip::Error>("a bad round that isn't the last", path);
    write(path, texts[0]);
    {
        sip::Journal open(path);
        fails<std::system_error>("open already", path);
    }
    try {
        sip::Journal none(path + "/none");
        must(false, "no folder");
    } catch (const std::system_error &error) {
        must(error.code() == std::errc::not_a_directory, "which fault");
    }
    std::filesystem::create_symlink(path, path + ".link");
    fails<std::system_error>("a symbolic link", path + ".link");
    try {
        sip::Journal(path).resume({{127, 0, 0, 2}, 5060});
        must(false, "another address");
    } catch (const sip::JournalError &error) {
        must(error.what() == std::string("the journal is of 127.0.0.1:5060"), "whose it is");
    }
}

int main(int count, char **words) {
    if (count != 2)
        return 2;
    try {
        the_same_agent(words[1]);
        torn_anywhere(words[1]);
        faults(words[1]);
    } catch (const std::exception &error) {
        std::cerr << "journal: " << error.what() << "\n";
        return 1;
    }
    std::cout << "journal: passed\n";
    return 0;
}
