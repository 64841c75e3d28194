// Holds the cache of cache.hpp against the golden model, call by call, and writes the calls up to the first answer that
// differs as a script.
//
//   lockstep [BUG [CALLS [SEED [SCRIPT]]]]     BUG: 0 (none) to 3, as cache.hpp has them; 100000, 1, counterexample.txt
#include "cache.hpp"
#include "lockup_scoreboard.h"
#include <algorithm>
#include <cstdio>
#include <cstdlib>
#include <iostream>
#include <random>
#include <string>

namespace {

const Shape SHAPE = {8, 2, 2, 2, 2, 1};
// a new machine after so many calls: a counterexample is never longer
const int ROUND = 100;

// The golden model of one core. It may be moved, and is never copied.
class Golden {
public:
    Golden() {
        lockup_config shape;
        lockup_defaults(&shape);
        shape.cores = 1;
        shape.lines = SHAPE.lines;
        shape.sets = SHAPE.sets;
        shape.ways = SHAPE.ways;
        shape.mshrs = SHAPE.registers;
        shape.targets = SHAPE.targets;
        shape.writebacks = SHAPE.write_backs;
        agrees(lockup_scoreboard_begin(&board, &shape, nullptr, 0, nullptr, 0));
        board.record = LOCKUP_RECORD_CHANGES;
    }
    ~Golden() { lockup_scoreboard_end(&board); }
    Golden(const Golden &) = delete;
    Golden &operator=(const Golden &) = delete;

    // Each makes a call of the model too. Returns whether the cache's answer is the same.

    bool access(const Access &it, const Answer &answer) {
        // of a hit and of a miss the number is one that the cache doesn't count
        uint64_t number = answer.answer >= LOCKUP_STALL ? answer.reason : LOCKUP_UNSEEN;
        lockup_issued issued = {answer.answer, number, answer.reply};
        return agrees(lockup_expect_issue(&board, 0, it.tag, it.op, it.word, it.operand, it.replacement, &issued));
    }
    bool evict(unsigned line, unsigned answer) { return agrees(lockup_expect_evict(&board, 0, line, answer)); }
    bool deliver(unsigned channel, unsigned line, unsigned answer) {
        return agrees(lockup_expect_deliver(&board, channel, line, 0, 0, answer));
    }
    bool hand(const std::optional<std::pair<unsigned, uint64_t>> &reply) {
        lockup_receipt receipt = {};
        if (reply) receipt = {1, LOCKUP_UNSEEN, reply->first, reply->second};
        return agrees(lockup_expect_hand(&board, 0, 0, &receipt));
    }

    void tell(const std::string &script) const {
        char said[LOCKUP_TEXT];
        lockup_difference_text(&board, said, sizeof said);
        std::cout << said << "\n  the calls that lead there: " << script << "\n";
        std::FILE *file = std::fopen(script.c_str(), "w");
        uint32_t code = file ? lockup_write_script(&board, file, 0) : uint32_t(LOCKUP_NOT_WRITTEN);
        if (code) std::cerr << script << ": " << LOCKUP_NAME(code, code) << "\n";
        if (file) std::fclose(file);
    }

private:
    lockup_scoreboard board = {};

    bool agrees(uint32_t code) {
        if (code == LOCKUP_OK || code == LOCKUP_DIFFERS) return code == LOCKUP_OK;
        std::cerr << "the golden model: " << LOCKUP_NAME(code, code) << "\n";
        std::exit(2);
    }
};

enum class Kind { Access, Evict, Request, Data, Acknowledgement, Hand };

struct Call {
    Kind kind;
    Access access; // its word names the line of the other calls
};

Call drawn(std::mt19937_64 &random) {
    auto below = [&](unsigned count) { return unsigned(random() % count); };
    static const Kind kinds[] = {Kind::Access, Kind::Access, Kind::Access, Kind::Evict, Kind::Request, Kind::Request,
                                 Kind::Data, Kind::Data, Kind::Acknowledgement, Kind::Hand};
    Call call = {kinds[below(10)], {below(8), below(4), below(SHAPE.lines * 8), 0, 0}};
    if (call.access.op != 0) call.access.operand = below(3);
    if (call.access.op == 3) call.access.replacement = below(3);
    return call;
}

// Makes a call of both. Returns whether they agree.
bool made(Cache &cache, Golden &golden, const Call &call) {
    unsigned line = call.access.line();
    switch (call.kind) {
    case Kind::Access: return golden.access(call.access, cache.access(call.access));
    case Kind::Evict: return golden.evict(line, cache.evict(line));
    case Kind::Request: return golden.deliver(LOCKUP_REQ, line, cache.take_request(line));
    case Kind::Data: return golden.deliver(LOCKUP_DATA, line, cache.take_data(line));
    case Kind::Acknowledgement: return golden.deliver(LOCKUP_FWD, line, cache.take_acknowledgement(line));
    default: return golden.hand(cache.hand());
    }
}

// A round on new machines. Returns whether they agree.
bool agree(Bug bug, int count, std::mt19937_64 &random, const std::string &script) {
    Cache cache(SHAPE, bug);
    Golden golden;
    for (int nth = 0; nth < count; nth++)
        if (!made(cache, golden, drawn(random))) {
            golden.tell(script);
            return false;
        }
    return true;
}

} // namespace

int main(int count, char **words) {
    Bug bug = Bug(count > 1 ? std::atoi(words[1]) : 0);
    int calls = count > 2 ? std::atoi(words[2]) : 100000;
    std::mt19937_64 random(count > 3 ? std::strtoull(words[3], nullptr, 10) : 1);
    std::string script = count > 4 ? words[4] : "counterexample.txt";
    for (int made = 0; made < calls; made += ROUND)
        if (!agree(bug, std::min(ROUND, calls - made), random, script)) return 1;
    std::cout << "agree: " << calls << " calls\n";
}
