// The earliest execution of a problem by insertion, arc by arc, in the order of `tracesync solve`. It is that of the program, and as
// the raises are given out in the same order too, so are the certificates, contradictions included.
//
// The arcs of the short list are brought one by one into the earliest execution so far. An arc that this does not obey
// asks its tail to rise. The greatest raise that waits is given out first, and then asks at the tails of all arcs that
// arrive at its node, so each node rises at most once; if the new arc's own head is to rise, there is a contradiction.
//
// A step is one look at an entry of the list of arcs that arrive at a node, also the look that finds no more, or one
// raise taken out of those that wait, also the try that finds none. Their queue is a binary heap here.

#ifndef BENCH_INSERTION_HPP
#define BENCH_INSERTION_HPP

#include "arcs.hpp"

#include <algorithm>
#include <cstddef>
#include <cstdint>
#include <functional>
#include <limits>
#include <numeric>
#include <optional>
#include <queue>
#include <tuple>
#include <vector>

namespace bench {

// The raises that wait. ----------------------------------------------------------------------------------------------

struct Raise {
    Units by;
    std::uint32_t node;
};

struct IsAfter {
    bool operator()(const Raise &a, const Raise &b) const { return a.by != b.by ? a.by < b.by : a.node > b.node; }
};

class Frontier {
  public:
    explicit Frontier(std::size_t nodes) : waiting_(nodes, 0) {}

    void grow(std::size_t nodes) { waiting_.resize(nodes, 0); }

    // Lets a node wait for a raise, if it waits for less; whether it does so now.
    bool ask(std::uint32_t node, Units by) {
        if (by <= waiting_[node]) {
            return false;
        }
        waiting_[node] = by;
        heap_.push({by, node});
        return true;
    }

    // Takes out the greatest raise and, among these, that of the least node.
    std::optional<Raise> pop() {
        while (!heap_.empty()) {
            const auto raise = heap_.top();
            heap_.pop();
            // A raise that a greater one has replaced is still in the heap.
            if (waiting_[raise.node] == raise.by) {
                waiting_[raise.node] = 0;
                return raise;
            }
        }
        return std::nullopt;
    }

  private:
    // What each node waits for; 0 if for nothing.
    std::vector<Units> waiting_;
    std::priority_queue<Raise, std::vector<Raise>, IsAfter> heap_;
};

// The earliest execution, kept while arcs come in. -------------------------------------------------------------------

class Earliest {
  public:
    Earliest(std::size_t nodes, const std::vector<Arc> &arcs)
        : arcs_{arcs}, arriving_(nodes), values_(nodes, 0), parents_(nodes, 0), frontier_{nodes} {}

    // Makes room for nodes that no arc has yet.
    void grow(std::size_t nodes) {
        arriving_.resize(nodes);
        values_.resize(nodes, 0);
        parents_.resize(nodes, 0);
        frontier_.grow(nodes);
    }

    // Brings in all arcs in their order. Whether there is an execution; if not, `cycle` shows why.
    bool insert_all() {
        for (std::uint32_t k = 0; k < arcs_.size(); ++k) {
            if (!insert(k)) {
                return false;
            }
        }
        return true;
    }

    // Brings in the arc with this number. Whether there is an execution still.
    bool insert(std::uint32_t k) {
        const auto &arc = arcs_[k];
        arriving_[arc.to].push_back(k);
        if (!ask_tail(k)) {
            return true;
        }
        ++steps_;
        while (const auto raise = frontier_.pop()) {
            if (raise->node == arc.to) {
                stuck_ = arc.to;
                return false;
            }
            values_[raise->node] += raise->by;
            for (const auto arriving : arriving_[raise->node]) {
                ++steps_;
                ask_tail(arriving);
            }
            // The look that finds no more, and the next raise.
            steps_ += 2;
        }
        return true;
    }

    std::uint64_t steps() const { return steps_; }

    const std::vector<Units> &values() const { return values_; }

    std::vector<Arc> cycle() const {
        std::vector<Arc> steps;
        auto node = stuck_;
        do {
            steps.push_back(arcs_[parents_[node]]);
            node = steps.back().to;
        } while (node != stuck_);
        return steps;
    }

  private:
    bool ask_tail(std::uint32_t k) {
        const auto &arc = arcs_[k];
        const bool waits = frontier_.ask(arc.from, values_[arc.to] - arc.weight - values_[arc.from]);
        if (waits) {
            parents_[arc.from] = k;
        }
        return waits;
    }

    const std::vector<Arc> &arcs_;
    // The numbers of the arcs that are in, by their heads.
    std::vector<std::vector<std::uint32_t>> arriving_;
    std::vector<Units> values_;
    // The arc that asked for the last raise of each node.
    std::vector<std::uint32_t> parents_;
    Frontier frontier_;
    std::uint64_t steps_ = 0;
    std::uint32_t stuck_ = 0;
};

// The merged order. --------------------------------------------------------------------------------------------------

// A message as one of its clocks sees the other: how much more than at the one end is stamped at the other, in ns.
struct Link {
    std::uint32_t from;
    std::uint32_t to;
    Units ahead;

    bool operator<(const Link &other) const {
        return std::tie(from, to, ahead) < std::tie(other.from, other.to, other.ahead);
    }
};

inline std::vector<Link> links_of(const Problem &problem) {
    std::vector<Link> links;
    links.reserve(2 * problem.messages.size());
    for (const auto &message : problem.messages) {
        const auto &send = problem.events[message.send];
        const auto &receive = problem.events[message.receive];
        const Units ahead = Units{receive.stamp} - send.stamp;
        links.push_back({send.clock, receive.clock, ahead});
        links.push_back({receive.clock, send.clock, -ahead});
    }
    std::sort(links.begin(), links.end());
    return links;
}

// How far a clock is ahead of others, in ns, and how many clocks were reached before it.
struct Offset {
    Units ahead;
    std::uint32_t turn;
};

// The offset of each clock. Clocks are reached breadth-first over messages, by the least link of each pair, and time and
// again from the first one that has not been reached.
inline std::vector<Offset> clock_offsets(const Problem &problem) {
    const auto links = links_of(problem);
    std::vector<std::optional<Offset>> found(problem.clocks.size());
    std::queue<std::uint32_t> reached;
    std::uint32_t turns = 0;
    const auto reach = [&](std::uint32_t clock, Units ahead) {
        if (!found[clock]) {
            found[clock] = {ahead, turns++};
            reached.push(clock);
        }
    };
    for (std::uint32_t first = 0; first < problem.clocks.size(); ++first) {
        reach(first, 0);
        for (; !reached.empty(); reached.pop()) {
            const auto clock = reached.front();
            auto link = std::partition_point(links.begin(), links.end(), [&](const Link &l) { return l.from < clock; });
            for (; link != links.end() && link->from == clock; ++link) {
                reach(link->to, found[clock]->ahead + link->ahead);
            }
        }
    }
    std::vector<Offset> offsets;
    offsets.reserve(found.size());
    for (const auto &offset : found) {
        offsets.push_back(*offset);
    }
    return offsets;
}

// An event behind its time: its stamp less the offset that its clock has then, in ns.
struct Timed {
    Units time;
    std::uint32_t event;

    bool operator<(const Timed &other) const { return std::tie(time, event) < std::tie(other.time, other.event); }
    bool operator>(const Timed &other) const { return other < *this; }
};

// An event that comes next behind another, and whether it does so by its clock, or by a message.
struct Successor {
    bool by_clock;
    std::uint32_t event;

    bool operator<(const Successor &other) const {
        return std::tie(by_clock, event) < std::tie(other.by_clock, other.event);
    }
};

// The order in which events come in: upward on each clock, a send before its receive, and otherwise by time.
class Merge {
  public:
    explicit Merge(const Problem &problem)
        : problem_{problem}, offsets_{clock_offsets(problem)}, after_(problem.events.size()),
          waits_for_(problem.events.size(), 0), is_queued_(problem.events.size(), false) {
        follow_clocks();
        for (const auto &message : problem.messages) {
            follow(message.send, {false, message.receive});
        }
        for (auto &after : after_) {
            std::sort(after.begin(), after.end());
        }
    }

    // The place of each event in the order.
    std::vector<std::uint32_t> event_ranks() {
        std::vector<Timed> by_time(problem_.events.size());
        for (std::uint32_t event = 0; event < by_time.size(); ++event) {
            by_time[event] = timed(event);
        }
        std::sort(by_time.begin(), by_time.end());
        for (const auto &entry : by_time) {
            push_ready(entry.event);
        }
        std::vector<std::uint32_t> ranks(problem_.events.size());
        auto first = by_time.begin();
        for (std::uint32_t rank = 0; rank < ranks.size(); ++rank) {
            // Where no event is ready, the earliest one that has not been queued is taken as it is.
            if (ready_.empty()) {
                first = std::find_if(first, by_time.end(), [&](const Timed &t) { return !is_queued_[t.event]; });
                push(first->event);
            }
            const auto event = ready_.top().event;
            ready_.pop();
            ranks[event] = rank;
            for (const auto after : after_[event]) {
                if (!after.by_clock) {
                    follow_message(event, after.event);
                }
                --waits_for_[after.event];
                push_ready(after.event);
            }
        }
        return ranks;
    }

  private:
    // Each event comes behind the one before it on its clock. Among equal stamps the events go by their places.
    void follow_clocks() {
        std::vector<std::uint32_t> events(problem_.events.size());
        std::iota(events.begin(), events.end(), 0);
        std::stable_sort(events.begin(), events.end(), [&](std::uint32_t a, std::uint32_t b) {
            const auto &p = problem_.events[a];
            const auto &q = problem_.events[b];
            return std::tie(p.clock, p.stamp) < std::tie(q.clock, q.stamp);
        });
        for (std::size_t k = 1; k < events.size(); ++k) {
            if (problem_.events[events[k - 1]].clock == problem_.events[events[k]].clock) {
                follow(events[k - 1], {true, events[k]});
            }
        }
    }

    void follow(std::uint32_t before, Successor after) {
        after_[before].push_back(after);
        ++waits_for_[after.event];
    }

    Timed timed(std::uint32_t event) const {
        const auto &it = problem_.events[event];
        return {it.stamp - offsets_[it.clock].ahead, event};
    }

    // Of the two clocks of a message the one that was reached later takes its offset from the message.
    void follow_message(std::uint32_t send, std::uint32_t receive) {
        const auto sender = offsets_[problem_.events[send].clock].turn;
        const auto receiver = offsets_[problem_.events[receive].clock].turn;
        if (sender < receiver) {
            join(send, receive);
        } else if (receiver < sender) {
            join(receive, send);
        }
    }

    // The clock of the second event takes the offset by which it has the time of the first one.
    void join(std::uint32_t first, std::uint32_t second) {
        const auto &it = problem_.events[second];
        offsets_[it.clock].ahead = it.stamp - timed(first).time;
    }

    void push_ready(std::uint32_t event) {
        if (waits_for_[event] == 0 && !is_queued_[event]) {
            push(event);
        }
    }

    void push(std::uint32_t event) {
        is_queued_[event] = true;
        ready_.push(timed(event));
    }

    const Problem &problem_;
    std::vector<Offset> offsets_;
    // Which events come next behind each, and how many each waits for.
    std::vector<std::vector<Successor>> after_;
    std::vector<std::uint32_t> waits_for_;
    std::vector<bool> is_queued_;
    std::priority_queue<Timed, std::vector<Timed>, std::greater<Timed>> ready_;
};

// The short list, each arc by the greater rank of its ends, and then as it stands. The rank of a reading is the least
// of those of its events.
inline std::vector<Arc> merged_list(const Problem &problem) {
    auto ranks = Merge{problem}.event_ranks();
    ranks.resize(nodes_of(problem), std::numeric_limits<std::uint32_t>::max());
    for (std::size_t k = 0; k < problem.events.size(); ++k) {
        auto &rank = ranks[reading_node(problem, problem.events[k].reading)];
        rank = std::min(rank, ranks[k]);
    }
    const auto rank_of = [&](const Arc &arc) { return std::max(ranks[arc.from], ranks[arc.to]); };
    auto arcs = short_list(problem);
    std::stable_sort(arcs.begin(), arcs.end(), [&](const Arc &a, const Arc &b) { return rank_of(a) < rank_of(b); });
    return arcs;
}

} // namespace bench

#endif
