// The short list of a problem as arcs between numbered nodes, the shortest distances over arcs, and the certificates
// that `tracesync solve` prints.

#ifndef BENCH_ARCS_HPP
#define BENCH_ARCS_HPP

#include "problem.hpp"

#include <cstddef>
#include <cstdint>
#include <iostream>
#include <limits>
#include <optional>
#include <queue>
#include <string>
#include <utility>
#include <vector>

namespace bench {

enum class Kind : std::uint8_t { SpanMost, SpanLeast, Late, Early, DelayMost, DelayLeast };

// The bound that the real time of node `to` minus that of node `from` is at most `weight`. The nodes are the events,
// then the readings. `place` is that of the upper one of two readings, of the event, or of the message.
struct Arc {
    Units weight;
    std::uint32_t from;
    std::uint32_t to;
    std::uint32_t place;
    Kind kind;
};

// The short list. ----------------------------------------------------------------------------------------------------

inline std::size_t nodes_of(const Problem &problem) { return problem.events.size() + problem.readings.size(); }

inline std::uint32_t reading_node(const Problem &problem, std::size_t reading) {
    return static_cast<std::uint32_t>(problem.events.size() + reading);
}

// Appends both bounds over the span of a reading and the one below it, if that is of the same clock.
inline void push_spans(std::vector<Arc> &arcs, const Problem &problem, std::uint32_t reading) {
    const auto &t = problem.readings[reading];
    if (reading == 0 || problem.readings[reading - 1].clock != t.clock) {
        return;
    }
    const auto &s = problem.readings[reading - 1];
    const auto &clock = problem.clocks[t.clock];
    const Units span = t.stamp - s.stamp;
    const auto below = reading_node(problem, reading - 1);
    const auto node = reading_node(problem, reading);
    arcs.push_back({span * (UNITS_OF_A_NS + clock.longest), below, node, reading, Kind::SpanMost});
    arcs.push_back({-span * (UNITS_OF_A_NS - clock.shortest), node, below, reading, Kind::SpanLeast});
}

// Appends both bounds on the stamp of an event.
inline void push_stamp(std::vector<Arc> &arcs, const Problem &problem, std::uint32_t event) {
    const auto &clock = problem.clocks[problem.events[event].clock];
    const auto reading = reading_node(problem, problem.events[event].reading);
    arcs.push_back({delay_units(clock.late), reading, event, event, Kind::Late});
    arcs.push_back({delay_units(clock.early), event, reading, event, Kind::Early});
}

// Appends the bounds on the delay of a message.
inline void push_delays(std::vector<Arc> &arcs, const Problem &problem, std::uint32_t place) {
    const auto &message = problem.messages[place];
    if (message.most) {
        arcs.push_back({delay_units(*message.most), message.send, message.receive, place, Kind::DelayMost});
    }
    arcs.push_back({-delay_units(message.least), message.receive, message.send, place, Kind::DelayLeast});
}

inline std::size_t most_arcs(const Problem &problem) {
    return 2 * (problem.readings.size() + problem.events.size() + problem.messages.size());
}

// The spans of neighbouring readings, then the stamps of events, then the delays of messages.
inline std::vector<Arc> short_list(const Problem &problem) {
    std::vector<Arc> arcs;
    arcs.reserve(most_arcs(problem));
    for (std::uint32_t k = 0; k < problem.readings.size(); ++k) {
        push_spans(arcs, problem, k);
    }
    for (std::uint32_t k = 0; k < problem.events.size(); ++k) {
        push_stamp(arcs, problem, k);
    }
    for (std::uint32_t k = 0; k < problem.messages.size(); ++k) {
        push_delays(arcs, problem, k);
    }
    return arcs;
}

// Shortest distances. ------------------------------------------------------------------------------------------------

// The numbers of the arcs that have their end `Near` at each node, node by node in one array.
template <std::uint32_t Arc::*Near> class ArcsAt {
  public:
    ArcsAt(std::size_t nodes, const std::vector<Arc> &arcs) : starts_(nodes + 1), numbers_(arcs.size()) {
        for (const auto &arc : arcs) {
            ++starts_[arc.*Near + 1];
        }
        for (std::size_t node = 0; node < nodes; ++node) {
            starts_[node + 1] += starts_[node];
        }
        auto next = starts_;
        for (std::uint32_t k = 0; k < arcs.size(); ++k) {
            numbers_[next[arcs[k].*Near]++] = k;
        }
    }

    const std::uint32_t *begin(std::uint32_t node) const { return numbers_.data() + starts_[node]; }
    const std::uint32_t *end(std::uint32_t node) const { return numbers_.data() + starts_[node + 1]; }

  private:
    std::vector<std::uint32_t> starts_;
    std::vector<std::uint32_t> numbers_;
};

// Shortest distances by the algorithm of Bellman and Ford, with a queue of the nodes whose distance has changed. Arcs
// are followed from their end `Near` to their end `Far`.
template <std::uint32_t Arc::*Near, std::uint32_t Arc::*Far> class Distances {
  public:
    Distances(std::size_t nodes, const std::vector<Arc> &arcs)
        : arcs_{arcs}, followed_{nodes, arcs}, distances_(nodes, NO_PATH), parents_(nodes, NO_ARC),
          waits_(nodes, false) {}

    // Gives a node the distance 0.
    void start(std::uint32_t node) {
        distances_[node] = 0;
        push(node);
    }

    // Follows arcs until none leads to a lesser distance. If that never ends, it is a node on a cycle with a negative
    // sum.
    std::optional<std::uint32_t> settle() {
        std::size_t changes = 0;
        while (!queue_.empty()) {
            const auto node = queue_.front();
            queue_.pop();
            waits_[node] = false;
            changes += follow(node);
            // A search takes as long as there are nodes, so there is one in as many changes.
            if (changes >= distances_.size()) {
                changes = 0;
                if (const auto node_on_cycle = find_cycle()) {
                    return node_on_cycle;
                }
            }
        }
        return std::nullopt;
    }

    // None where no path leads.
    std::optional<Units> distance(std::uint32_t node) const {
        return distances_[node] == NO_PATH ? std::nullopt : std::optional{distances_[node]};
    }

    std::vector<Units> take_distances() { return std::move(distances_); }

    // The arc by which a node got its distance.
    const Arc &parent(std::uint32_t node) const { return arcs_[parents_[node]]; }

  private:
    static constexpr Units NO_PATH = std::numeric_limits<Units>::max();
    static constexpr std::uint32_t NO_ARC = std::numeric_limits<std::uint32_t>::max();

    void push(std::uint32_t node) {
        if (!waits_[node]) {
            waits_[node] = true;
            queue_.push(node);
        }
    }

    // Follows all arcs at a node; how many distances changed.
    std::size_t follow(std::uint32_t node) {
        std::size_t changes = 0;
        for (const auto *k = followed_.begin(node); k != followed_.end(node); ++k) {
            const auto &arc = arcs_[*k];
            const Units distance = distances_[node] + arc.weight;
            if (distances_[arc.*Far] <= distance) {
                continue;
            }
            distances_[arc.*Far] = distance;
            parents_[arc.*Far] = *k;
            ++changes;
            push(arc.*Far);
        }
        return changes;
    }

    // A node on a cycle of parents, if there is one. The sum of its weights is negative.
    std::optional<std::uint32_t> find_cycle() const {
        std::vector<std::uint32_t> walks(distances_.size(), 0);
        for (std::uint32_t start = 0; start < distances_.size(); ++start) {
            auto node = start;
            while (walks[node] == 0 && parents_[node] != NO_ARC) {
                walks[node] = start + 1;
                node = parent(node).*Near;
            }
            if (walks[node] == start + 1) {
                return node;
            }
        }
        return std::nullopt;
    }

    const std::vector<Arc> &arcs_;
    ArcsAt<Near> followed_;
    std::vector<Units> distances_;
    // The number of the arc by which each node got its distance.
    std::vector<std::uint32_t> parents_;
    std::queue<std::uint32_t> queue_;
    std::vector<bool> waits_;
};

using DistancesFrom = Distances<&Arc::from, &Arc::to>;
using DistancesTo = Distances<&Arc::to, &Arc::from>;

// The values of the earliest execution, or a cycle with a negative sum where there is no execution.
struct Solution {
    std::vector<Units> values;
    std::vector<Arc> cycle;
};

// The value of a node in the earliest execution is the negative of its distance to the nearest node, itself included.
inline Solution solution_of(const Problem &problem, const std::vector<Arc> &arcs) {
    DistancesTo nearest{nodes_of(problem), arcs};
    for (std::uint32_t node = 0; node < nodes_of(problem); ++node) {
        nearest.start(node);
    }
    Solution solution;
    if (const auto first = nearest.settle()) {
        auto node = *first;
        do {
            solution.cycle.push_back(nearest.parent(node));
            node = solution.cycle.back().to;
        } while (node != *first);
        return solution;
    }
    solution.values = nearest.take_distances();
    for (auto &value : solution.values) {
        value = -value;
    }
    return solution;
}

// Certificates. ------------------------------------------------------------------------------------------------------

inline std::string bound_text(const Problem &problem, const Arc &arc) {
    const auto span = [&](const char *kind) {
        const auto &t = problem.readings[arc.place];
        const auto &s = problem.readings[arc.place - 1];
        return joined({kind, problem.clocks[t.clock].name, std::to_string(s.stamp), std::to_string(t.stamp)});
    };
    const auto stamp = [&](const char *kind) { return joined({kind, problem.events[arc.place].name}); };
    const auto delay = [&](const char *kind) {
        const auto &message = problem.messages[arc.place];
        return joined({kind, problem.events[message.send].name, problem.events[message.receive].name});
    };
    switch (arc.kind) {
    case Kind::SpanMost:
        return span("span-most");
    case Kind::SpanLeast:
        return span("span-least");
    case Kind::Late:
        return stamp("late");
    case Kind::Early:
        return stamp("early");
    case Kind::DelayMost:
        return delay("delay-most");
    default:
        return delay("delay-least");
    }
}

// Appends a line for each node with its value.
inline void append_values(std::string &text, const Problem &problem, const std::vector<Units> &values) {
    auto value = values.begin();
    const auto append_value = [&] {
        text.push_back(' ');
        append_ns(text, *value++);
        text.push_back('\n');
    };
    for (const auto &event : problem.events) {
        text += "event ";
        text += event.name;
        append_value();
    }
    for (const auto &reading : problem.readings) {
        text += "reading ";
        text += problem.clocks[reading.clock].name;
        text.push_back(' ');
        text += std::to_string(reading.stamp);
        append_value();
    }
}

// Appends a line for each step.
inline void append_steps(std::string &text, const Problem &problem, const std::vector<Arc> &steps) {
    for (const auto &arc : steps) {
        text += "step ";
        text += bound_text(problem, arc);
        text.push_back(' ');
        append_ns(text, arc.weight);
        text.push_back('\n');
    }
}

inline void print_run(const Problem &problem, const std::vector<Units> &values) {
    std::string text = "certificate 1\nrun\n";
    append_values(text, problem, values);
    std::cout << text << "end\n";
}

inline void print_cycle(const Problem &problem, const std::vector<Arc> &steps) {
    std::string text = "certificate 1\ncycle\n";
    append_steps(text, problem, steps);
    std::cout << text << "end\n";
}

} // namespace bench

#endif
