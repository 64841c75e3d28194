// Plays a script on the cache of cache.hpp, and prints what it answers as `lockup script` does; `?` stands for the numbers
// that it doesn't count, and for what it doesn't show.
//
//   player BUG SCRIPT     BUG: 0 (none) to 3, as cache.hpp has them
//
// The status is 2 at a script of a machine that isn't one core with LRU and explicit miss registers.
#include "cache.hpp"
#include <cstdlib>
#include <fstream>
#include <iostream>
#include <map>
#include <memory>
#include <sstream>
#include <string>
#include <vector>

namespace {

using Words = std::vector<std::string>;

[[noreturn]] void refuse(const std::string &what) {
    std::cerr << "the cache can't play " << what << "\n";
    std::exit(2);
}

uint64_t number(const Words &words, size_t at) {
    return at < words.size() ? std::strtoull(words[at].c_str(), nullptr, 10) : 0;
}

Words words_of(const std::string &line) {
    std::istringstream row(line.substr(0, line.find('=')));
    Words words;
    for (std::string word; row >> word;) words.push_back(word);
    return words;
}

// The shape that the cache is to have, as a script configures it. Without such lines it is that of docs/TEXTS.md.
struct Setting {
    std::map<std::string, uint64_t> fields = {{"cores", 2}, {"slices", 1}, {"lines", 16}, {"sets", 4}, {"ways", 2},
                                              {"mshrs", 4}, {"targets", 4}, {"writebacks", 2}};

    // Returns whether the line configures.
    bool take(const Words &words) {
        static const std::map<std::string, std::string> only = {{"policy", "lru"}, {"misses", "explicit"},
                                                                {"exclusive", "off"}};
        auto wanted = only.find(words[0]);
        if (fields.count(words[0])) fields[words[0]] = number(words, 1);
        else if (wanted == only.end()) return false;
        else if (words.size() != 2 || words[1] != wanted->second) refuse(words[0] + " but " + wanted->second);
        return true;
    }
    Shape shape() {
        if (fields["cores"] != 1 || fields["slices"] != 1) refuse("more than one core in one slice");
        auto field = [&](const std::string &name) {
            if (fields[name] == 0) refuse("none of " + name);
            return unsigned(fields[name]);
        };
        return {field("lines"), field("sets"), field("ways"), field("mshrs"), field("targets"), field("writebacks")};
    }
};

std::string issue(Cache &cache, const Words &words, uint64_t lines) {
    static const std::map<std::string, unsigned> ops = {{"load", 0}, {"store", 1}, {"add", 2}, {"cas", 3}};
    static const char *const stalls[] = {"", "NoRegister", "NoTarget", "NoWay", "WriteBackFull", "WriteBackBusy"};
    auto op = ops.find(words[3]);
    uint64_t tag = number(words, 2), word = number(words, 4);
    if (op == ops.end()) refuse("the access " + words[3]);
    if (word >= 8 * lines) return "refused 1 OutOfRange";
    if (tag >= 64) return "refused 2 TagRange";
    Answer it = cache.access({unsigned(tag), op->second, unsigned(word), number(words, 5), number(words, 6)});
    switch (it.answer) {
    case 0: return "done ? reply " + std::to_string(it.reply);
    case 1: return "pending ?";
    case 2: return "stall " + std::to_string(it.reason) + " " + stalls[it.reason];
    default: return "refused 3 TagBusy";
    }
}

std::string deliver(Cache &cache, const Words &words) {
    static const char *const answers[] = {"moved", "blocked", "nothing"};
    unsigned line = unsigned(number(words, 2));
    if (words[1] == "req") return answers[cache.take_request(line)];
    if (words[1] == "data") return answers[cache.take_data(line)];
    // one core gets no acknowledgements but of its puts, and nothing goes home but with them
    return words[1] == "fwd" ? answers[cache.take_acknowledgement(line)] : "nothing";
}

std::string answer(Cache &cache, const Words &words, uint64_t lines) {
    static const char *const evicted[] = {"evicting", "not held", "busy", "buffer full"};
    if (words[0] == "word" || words[0] == "state") return "?";
    if (number(words, words[0] == "deliver" ? 3 : 1) != 0) refuse("a command of another core");
    if (words[0] == "issue" && words.size() > 4) return issue(cache, words, lines);
    if (words[0] == "deliver" && words.size() > 2) return deliver(cache, words);
    if (words[0] == "evict") return evicted[cache.evict(unsigned(number(words, 2)))];
    if (words[0] != "hand") refuse("the command " + words[0]);
    auto reply = cache.hand();
    return reply ? "receipt ? tag " + std::to_string(reply->first) + " reply " + std::to_string(reply->second) : "none";
}

} // namespace

int main(int count, char **words) {
    std::ifstream script(count > 2 ? words[2] : "");
    if (!script) refuse(count > 2 ? words[2] : "no script");
    Setting setting;
    std::unique_ptr<Cache> cache;
    for (std::string line; std::getline(script, line);) {
        Words its = words_of(line);
        if (its.empty() || line[0] == '#' || (!cache && setting.take(its))) continue;
        if (!cache) cache = std::make_unique<Cache>(setting.shape(), Bug(std::atoi(words[1])));
        std::cout << answer(*cache, its, setting.fields["lines"]) << "\n";
    }
}
