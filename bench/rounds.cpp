// Finds the least widening of a problem as `tracesync widen` does, and counts the rounds: for how many widenings it solves.
//
//     rounds PROBLEM    the text of the widening; the line `rounds N` goes to the standard error
//
// A contradiction tells up to which widening it stays one, so nothing below the next one heals; an execution tells what does. The low end
// and something above it are tried by turns: the middle of what is left, or, while nothing is known to heal, something in strides that grow.

#include "insertion.hpp"

#include <algorithm>
#include <cstdint>
#include <iostream>
#include <new>
#include <string>
#include <vector>

namespace {

using namespace bench;

constexpr std::uint64_t STRIDES_GROW_BY = 16;

// Which widening is tried next.
class Choice {
  public:
    std::uint64_t next(std::uint64_t low, std::uint64_t high, bool heals) {
        is_above_ = !is_above_;
        if (is_above_) {
            return low;
        }
        if (heals) {
            return low + (high - low) / 2;
        }
        const auto stride = stride_;
        stride_ = stride_ < NANO_LIMIT / STRIDES_GROW_BY ? stride_ * STRIDES_GROW_BY : NANO_LIMIT;
        return std::min(low + stride, high - 1);
    }

  private:
    bool is_above_ = false;
    std::uint64_t stride_ = 1;
};

// Nothing below `low` heals, by the cycle, and `high` does where there is an execution.
struct Known {
    std::uint64_t low = 0;
    std::uint64_t high = NANO_LIMIT;
    std::vector<Arc> below;
    std::vector<Units> run;
};

Units rise_of(const Arc &arc, std::uint64_t extra) { return arc.kind == Kind::DelayMost ? delay_units(extra) : 0; }

std::vector<Arc> raised(std::vector<Arc> arcs, std::uint64_t extra) {
    for (auto &arc : arcs) {
        arc.weight += rise_of(arc, extra);
    }
    return arcs;
}

// How much more a cycle may be widened and stay a contradiction, up to a limit, in ns.
std::uint64_t last_rise(const std::vector<Arc> &cycle, std::uint64_t limit) {
    Units sum = 0;
    Units delays = 0;
    for (const auto &arc : cycle) {
        sum += arc.weight;
        delays += arc.kind == Kind::DelayMost;
    }
    if (delays == 0) {
        return limit;
    }
    return static_cast<std::uint64_t>(std::min<Units>((-sum - 1) / (delays * UNITS_OF_A_NS), limit));
}

std::string text_of(const Problem &problem, const Known &known) {
    std::string text = "widening 1\nleast ";
    text += known.run.empty() && known.high == NANO_LIMIT ? "none" : std::to_string(known.low);
    text.push_back('\n');
    if (known.high < NANO_LIMIT) {
        append_values(text, problem, known.run);
    }
    if (!known.below.empty()) {
        text += "cycle\n";
        append_steps(text, problem, known.below);
    }
    return text + "end\n";
}

int widen(const Problem &problem) {
    const auto arcs = merged_list(problem);
    Choice choice;
    Known known;
    std::uint64_t rounds = 0;
    while (known.low < known.high) {
        ++rounds;
        const auto extra = choice.next(known.low, known.high, known.high < NANO_LIMIT);
        const auto widened = raised(arcs, extra);
        Earliest earliest{nodes_of(problem), widened};
        if (earliest.insert_all()) {
            known.high = extra;
            known.run = earliest.values();
        } else {
            const auto rise = last_rise(earliest.cycle(), NANO_LIMIT - 1 - extra);
            known.low = extra + rise + 1;
            known.below = raised(earliest.cycle(), rise);
        }
    }
    std::cout << text_of(problem, known);
    std::cerr << "rounds " << rounds << '\n';
    return 0;
}

} // namespace

int main(int count, char **words) {
    if (count != 2) {
        std::cout << "usage: rounds PROBLEM\n";
        return 2;
    }
    try {
        return with_problem(words[1], widen);
    } catch (const ReadFault &) {
        std::cout << "read fault\n";
        return 7;
    } catch (const std::bad_alloc &) {
        return 9;
    }
}
