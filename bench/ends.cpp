// Finds the least and the greatest difference of the real times of two events over all executions, and their order, or
// a contradiction: what `tracesync ends PROBLEM P Q` prints.
//
//     ends ends PROBLEM P Q     by the algorithm of the program: the insertion of `solve`, and then shortest distances by
//                               the algorithm of Dijkstra, with the earliest execution as potential
//     ends plain PROBLEM P Q    what one writes first: shortest distances by the algorithm of Bellman and Ford over the
//                               whole short list, with a queue of the nodes whose distance has changed
//     ends count PROBLEM P Q    the nodes and the arcs that the first way looks at for both distances: where all nodes
//                               are taken, and where it stops at the other event

#include "insertion.hpp"

#include <algorithm>
#include <cstddef>
#include <cstdint>
#include <functional>
#include <iostream>
#include <limits>
#include <new>
#include <optional>
#include <queue>
#include <string>
#include <string_view>
#include <utility>
#include <vector>

namespace {

using namespace bench;

constexpr int UNKNOWN_EVENT = 11;

// The event of a name.
std::optional<std::uint32_t> event_of(const Problem &problem, std::string_view name) {
    const auto place = std::find_if(problem.events.begin(), problem.events.end(),
                                    [&](const Event &event) { return event.name == name; });
    if (place == problem.events.end()) {
        return std::nullopt;
    }
    return static_cast<std::uint32_t>(place - problem.events.begin());
}

// Both distances. ----------------------------------------------------------------------------------------------------

// The greatest difference of the second event and the first, and that of the first and the second; none where it has no
// limit.
struct Pair {
    std::optional<Units> onward;
    std::optional<Units> back;
};

// The distance between two nodes: from the first one, by `DistancesFrom`, or to it, by `DistancesTo`.
template <typename Search>
std::optional<Units> plain_distance(std::size_t nodes, const std::vector<Arc> &arcs, std::uint32_t first,
                                    std::uint32_t second) {
    Search distances{nodes, arcs};
    distances.start(first);
    distances.settle();
    return distances.distance(second);
}

// The distances of one node by the algorithm of Dijkstra. Arcs are followed from their end `Near` to their end `Far`. By
// the earliest execution no reduced weight is below 0.
template <std::uint32_t Arc::*Near, std::uint32_t Arc::*Far> class Row {
  public:
    Row(const std::vector<Arc> &arcs, const std::vector<Units> &values)
        : arcs_{arcs}, values_{values}, followed_{values.size(), arcs}, reduced_(values.size(), NO_PATH),
          is_taken_(values.size(), false) {}

    // Takes nodes, the nearest one first, until none waits or this one was taken.
    void settle(std::uint32_t first, std::optional<std::uint32_t> last) {
        offer(first, 0);
        while (!waiting_.empty()) {
            const auto [by, node] = waiting_.top();
            waiting_.pop();
            if (is_taken_[node]) {
                continue;
            }
            is_taken_[node] = true;
            ++steps_;
            if (node == last) {
                return;
            }
            follow(node, by);
        }
    }

    std::optional<Units> distance(std::uint32_t first, std::uint32_t second) const {
        if (reduced_[second] == NO_PATH) {
            return std::nullopt;
        }
        return reduced_[second] + outward() * (values_[second] - values_[first]);
    }

    std::uint64_t steps() const { return steps_; }

  private:
    static constexpr Units NO_PATH = std::numeric_limits<Units>::max();

    // 1 where arcs are followed from tail to head, otherwise -1.
    static Units outward() { return Near == &Arc::from ? 1 : -1; }

    void offer(std::uint32_t node, Units by) {
        if (by < reduced_[node]) {
            reduced_[node] = by;
            waiting_.push({by, node});
        }
    }

    void follow(std::uint32_t node, Units by) {
        for (const auto *k = followed_.begin(node); k != followed_.end(node); ++k) {
            ++steps_;
            const auto &arc = arcs_[*k];
            offer(arc.*Far, by + arc.weight - (values_[arc.to] - values_[arc.from]));
        }
    }

    using Waiting = std::pair<Units, std::uint32_t>;

    const std::vector<Arc> &arcs_;
    const std::vector<Units> &values_;
    ArcsAt<Near> followed_;
    std::vector<Units> reduced_;
    std::vector<bool> is_taken_;
    std::priority_queue<Waiting, std::vector<Waiting>, std::greater<Waiting>> waiting_;
    std::uint64_t steps_ = 0;
};

using RowFrom = Row<&Arc::from, &Arc::to>;
using RowTo = Row<&Arc::to, &Arc::from>;

// Both rows of the first event, until all nodes are taken.
Pair by_rows(const std::vector<Arc> &arcs, const std::vector<Units> &values, std::uint32_t first,
             std::uint32_t second) {
    RowFrom from{arcs, values};
    from.settle(first, std::nullopt);
    RowTo to{arcs, values};
    to.settle(first, std::nullopt);
    return {from.distance(first, second), to.distance(first, second)};
}

Pair by_lists(const Problem &problem, const std::vector<Arc> &arcs, std::uint32_t first, std::uint32_t second) {
    return {plain_distance<DistancesFrom>(nodes_of(problem), arcs, first, second),
            plain_distance<DistancesTo>(nodes_of(problem), arcs, first, second)};
}

// What is printed. ---------------------------------------------------------------------------------------------------

const char *order_of(const std::optional<Units> &least, const std::optional<Units> &greatest) {
    if (least && *least > 0) {
        return "before";
    }
    if (greatest && *greatest < 0) {
        return "after";
    }
    return least && greatest && *least == 0 && *greatest == 0 ? "same" : "open";
}

int print_ends(const Pair &pair) {
    // The least difference is the negative of the greatest the other way round.
    auto least = pair.back;
    if (least) {
        least = -*least;
    }
    std::cout << (least ? ns_text(*least) : "-inf") << ' ' << (pair.onward ? ns_text(*pair.onward) : "+inf") << ' '
              << order_of(least, pair.onward) << '\n';
    return 0;
}

int ends(const Problem &problem, std::uint32_t first, std::uint32_t second) {
    const auto arcs = merged_list(problem);
    Earliest earliest{nodes_of(problem), arcs};
    if (!earliest.insert_all()) {
        print_cycle(problem, earliest.cycle());
        return 0;
    }
    return print_ends(by_rows(arcs, earliest.values(), first, second));
}

int plain(const Problem &problem, std::uint32_t first, std::uint32_t second) {
    const auto arcs = short_list(problem);
    if (const auto cycle = solution_of(problem, arcs).cycle; !cycle.empty()) {
        print_cycle(problem, cycle);
        return 0;
    }
    return print_ends(by_lists(problem, arcs, first, second));
}

template <typename Search>
std::uint64_t steps_of(const std::vector<Arc> &arcs, const std::vector<Units> &values, std::uint32_t first,
                       std::optional<std::uint32_t> last) {
    Search row{arcs, values};
    row.settle(first, last);
    return row.steps();
}

int count(const Problem &problem, std::uint32_t first, std::uint32_t second) {
    const auto arcs = merged_list(problem);
    Earliest earliest{nodes_of(problem), arcs};
    if (!earliest.insert_all()) {
        std::cout << "contradiction\n";
        return 0;
    }
    const auto &values = earliest.values();
    const auto whole = steps_of<RowFrom>(arcs, values, first, std::nullopt) +
                       steps_of<RowTo>(arcs, values, first, std::nullopt);
    const auto stopped =
        steps_of<RowFrom>(arcs, values, first, second) + steps_of<RowTo>(arcs, values, first, second);
    std::cout << "insertion " << earliest.steps() << " rows " << whole << " stopped " << stopped << '\n';
    return 0;
}

int run(std::string_view command, const Problem &problem, std::string_view first, std::string_view second) {
    const auto from = event_of(problem, first);
    const auto to = event_of(problem, second);
    if (!from || !to) {
        std::cout << "unknown event\n";
        return UNKNOWN_EVENT;
    }
    if (command == "count") {
        return count(problem, *from, *to);
    }
    return command == "plain" ? plain(problem, *from, *to) : ends(problem, *from, *to);
}

} // namespace

int main(int count, char **words) {
    const std::string_view command = count == 5 ? words[1] : "";
    if (command != "ends" && command != "plain" && command != "count") {
        std::cout << "usage: ends ends PROBLEM P Q | plain PROBLEM P Q | count PROBLEM P Q\n";
        return 2;
    }
    try {
        return with_problem(words[2],
                            [&](const Problem &problem) { return run(command, problem, words[3], words[4]); });
    } catch (const ReadFault &) {
        std::cout << "read fault\n";
        return 7;
    } catch (const std::bad_alloc &) {
        return 9;
    }
}
