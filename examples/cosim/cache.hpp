// A core's lockup-free cache as a simulator may have it, over a memory that answers when it is asked to: the model under
// test of lockstep.cpp. It knows nothing of the golden model but the numbers by which both answer.
#pragma once
#include <array>
#include <cstdint>
#include <deque>
#include <map>
#include <optional>
#include <set>
#include <vector>

enum class Bug { None, FullRegisterPassedOver, NewestTargetFirst, RegisterFreedBehindLoads };

struct Shape {
    unsigned lines, sets, ways, registers, targets, write_backs;
};

struct Access {
    unsigned tag, op, word; // op: load, store, add, compare-exchange
    uint64_t operand, replacement;
    unsigned line() const { return word / 8; }
    bool writes() const { return op != 0; }
};

struct Answer {
    unsigned answer = 0, reason = 0;
    uint64_t reply = 0;
    bool operator==(const Answer &it) const { return answer == it.answer && reason == it.reason && reply == it.reply; }
};

class Cache {
public:
    Cache(Shape shape, Bug bug) : shape(shape), bug(bug), sets(shape.sets), home(shape.lines) {}

    // ---- what the core does

    Answer access(const Access &access) {
        if (tags.count(access.tag)) return {3, 3};
        if (Register *found = find(access.line())) {
            if (found->targets.size() == shape.targets) return {2, 2};
            found->targets.push_back(access);
        } else if (auto answer = miss_or_hit(access)) {
            return *answer;
        }
        tags.insert(access.tag);
        return {1};
    }

    unsigned evict(unsigned line) {
        if (buffer.count(line)) return 2;
        Copy *copy = find_copy(line);
        if (!copy) return 1;
        if (copy->waits) return 2;
        if (buffer.size() == shape.write_backs) return 3;
        write_back(line);
        return 0;
    }

    // the oldest reply that wasn't handed out: its tag, and its value
    std::optional<std::pair<unsigned, uint64_t>> hand() {
        if (replies.empty()) return {};
        auto reply = replies.front();
        replies.pop_front();
        tags.erase(reply.first);
        return reply;
    }

    // ---- what the memory does: it takes a request, and sends data or an acknowledgement. 0 is done, 2 nothing to do

    unsigned take_request(unsigned line) {
        auto request = requests.find(line);
        if (request == requests.end()) return 2;
        if (request->second.put) {
            if (request->second.block) home[line] = *request->second.block;
            acknowledged.insert(line);
        } else {
            data[line] = request->second.modified;
        }
        requests.erase(request);
        return 0;
    }

    unsigned take_data(unsigned line) {
        auto came = data.find(line);
        if (came == data.end()) return 2;
        Copy *copy = find_copy(line);
        copy->block = home[line];
        copy->modified = came->second;
        copy->waits = false;
        data.erase(came);
        perform_targets(*copy);
        return 0;
    }

    unsigned take_acknowledgement(unsigned line) {
        if (!acknowledged.erase(line)) return 2;
        buffer.erase(line);
        return 0;
    }

private:
    using Block = std::array<uint64_t, 8>;
    struct Copy {
        unsigned line;
        bool waits, modified;
        Block block;
    };
    struct Register {
        unsigned line;
        std::deque<Access> targets;
    };
    struct Request {
        bool put, modified;
        std::optional<Block> block;
    };

    Shape shape;
    Bug bug;
    std::vector<std::vector<Copy>> sets; // the line that was used longest ago stands first
    std::vector<Register> registers;
    std::set<unsigned> buffer;
    std::set<unsigned> tags;
    std::deque<std::pair<unsigned, uint64_t>> replies;
    std::vector<Block> home;
    std::map<unsigned, Request> requests;
    std::map<unsigned, bool> data;
    std::set<unsigned> acknowledged;

    std::vector<Copy> &set_of(unsigned line) { return sets[line % shape.sets]; }

    Register *find(unsigned line) {
        for (Register &it : registers)
            if (it.line == line && (bug != Bug::FullRegisterPassedOver || it.targets.size() < shape.targets)) return &it;
        return nullptr;
    }

    Copy *find_copy(unsigned line) {
        for (Copy &it : set_of(line))
            if (it.line == line) return &it;
        return nullptr;
    }

    void use(unsigned line) {
        std::vector<Copy> &set = set_of(line);
        for (size_t way = 0; way + 1 < set.size(); way++)
            if (set[way].line == line) std::swap(set[way], set[way + 1]);
    }

    // An access to a line without a register: an answer, or nothing where a register was opened for it.
    std::optional<Answer> miss_or_hit(const Access &access) {
        if (buffer.count(access.line())) return Answer{2, 5};
        Copy *copy = find_copy(access.line());
        if (copy && !copy->waits && (copy->modified || !access.writes())) {
            uint64_t reply = perform(*copy, access);
            use(access.line());
            return Answer{0, 0, reply};
        }
        if (registers.size() == shape.registers) return Answer{2, 1};
        if (!copy)
            if (auto stalled = make_way(access.line())) return stalled;
        if (!copy) set_of(access.line()).push_back({access.line(), true, false, {}});
        find_copy(access.line())->waits = true;
        registers.push_back({access.line(), {access}});
        requests[access.line()] = {false, access.writes(), {}};
        return {};
    }

    std::optional<Answer> make_way(unsigned line) {
        std::vector<Copy> &set = set_of(line);
        if (set.size() < shape.ways) return {};
        for (const Copy &it : set)
            if (!it.waits) {
                if (buffer.size() == shape.write_backs) return Answer{2, 4};
                write_back(it.line);
                return {};
            }
        return Answer{2, 3};
    }

    void write_back(unsigned line) {
        std::vector<Copy> &set = set_of(line);
        for (auto it = set.begin(); it != set.end(); ++it)
            if (it->line == line) {
                requests[line] = {true, false, it->modified ? std::optional<Block>(it->block) : std::nullopt};
                buffer.insert(line);
                set.erase(it);
                return;
            }
    }

    uint64_t perform(Copy &copy, const Access &access) {
        uint64_t &word = copy.block[access.word % 8], before = word;
        if (access.op == 1) word = access.operand;
        if (access.op == 2) word += access.operand;
        if (access.op == 3 && before == access.operand) word = access.replacement;
        return access.op == 1 ? 0 : before;
    }

    // The data have come: the targets are performed, oldest first, up to the first write to a shared copy.
    void perform_targets(Copy &copy) {
        size_t place = 0;
        while (registers[place].line != copy.line) place++;
        std::deque<Access> &targets = registers[place].targets;
        bool performed = false;
        while (!targets.empty()) {
            Access next = bug == Bug::NewestTargetFirst ? targets.back() : targets.front();
            if (next.writes() && !copy.modified) break;
            replies.push_back({next.tag, perform(copy, next)});
            performed = true;
            if (bug == Bug::NewestTargetFirst) targets.pop_back();
            else targets.pop_front();
        }
        if (targets.empty() || bug == Bug::RegisterFreedBehindLoads) {
            registers.erase(registers.begin() + place);
        } else {
            copy.waits = true;
            requests[copy.line] = {false, true, {}};
        }
        if (performed) use(copy.line);
    }
};
