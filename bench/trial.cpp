// Does what `tracesync trial N` does, with the same answer, and counts the steps of its additions.
//
//     trial anew N    each addition computes all rows anew, by the algorithm of Dijkstra
//     trial kept N    each addition repairs them, arc by arc
//
// Rows are the shortest distances from one node to all others and from all others to it: those of the first event of each host, once it is
// kept, and those of the first reading of the source. Either way the earliest execution is kept while arcs come in, as insertion.hpp does it, and
// is the potential by which no arc is negative.
//
// A line for each batch goes to the standard error: the events so far, how many additions there were in it, and their steps. A step is a
// look at an entry of a node's list of arcs, also the one that finds no more, or a node taken out of those that wait, also the try that finds none.

#include "insertion.hpp"

#include <array>
#include <cstdint>
#include <cstdlib>
#include <iostream>
#include <iterator>
#include <map>
#include <queue>
#include <string>
#include <string_view>
#include <unordered_map>
#include <utility>
#include <vector>

namespace {

using namespace bench;

constexpr std::uint32_t HOSTS = 8;
constexpr std::uint32_t BATCHES = 20;
constexpr std::uint32_t ROUNDS = 100;
constexpr std::uint64_t DRIFT = 20'000;
constexpr std::uint64_t LATE = 50;
constexpr std::uint64_t LEAST = 1'000;
constexpr std::uint64_t MOST = 100'000;

// The workload. ------------------------------------------------------------------------------------------------------

class Draws {
  public:
    explicit Draws(std::uint64_t seed) : state_{seed} {}

    std::uint64_t below(std::uint64_t limit) {
        state_ = state_ * 6364136223846793005U + 1442695040888963407U;
        return (state_ >> 33) % limit;
    }

  private:
    std::uint64_t state_;
};

struct Row {
    std::uint64_t stamp;
    std::uint32_t message;
    bool is_send;
};

// What each host logs in a batch.
using Batch = std::array<std::vector<Row>, HOSTS>;

std::vector<Batch> workload(std::uint64_t seed) {
    Draws draws{seed};
    std::array<std::uint64_t, HOSTS> offsets;
    for (auto &offset : offsets) {
        offset = draws.below(1'000'000'000);
    }
    std::vector<Batch> batches(BATCHES);
    std::uint64_t time = 1'000'000'000;
    for (std::uint32_t round = 0; round < BATCHES * ROUNDS; ++round) {
        time += 1 + draws.below(100'000);
        const auto sender = draws.below(HOSTS);
        const auto receiver = (sender + 1 + draws.below(HOSTS - 1)) % HOSTS;
        const auto delay = LEAST + draws.below(MOST - LEAST + 1);
        auto &batch = batches[round / ROUNDS];
        batch[sender].push_back({offsets[sender] + time, round, true});
        batch[receiver].push_back({offsets[receiver] + time + delay, round, false});
    }
    return batches;
}

// Rows of distances. -------------------------------------------------------------------------------------------------

// The graph: arcs, and their numbers by both ends.
struct Graph {
    std::vector<Arc> arcs;
    std::vector<std::vector<std::uint32_t>> leaving;
    std::vector<std::vector<std::uint32_t>> arriving;

    std::uint32_t push_node() {
        leaving.emplace_back();
        arriving.emplace_back();
        return static_cast<std::uint32_t>(leaving.size() - 1);
    }
};

// The shortest distances from a node, or to it.
class KeptRow {
  public:
    KeptRow(const Graph &graph, std::uint32_t node, bool is_from) : graph_{graph}, node_{node}, is_from_{is_from} {}

    void make_anew(const std::vector<Units> &values, std::uint64_t &steps) {
        known_.assign(values.size(), false);
        distances_.assign(values.size(), 0);
        ask(node_, 0, values);
        settle(values, steps);
    }

    // Repairs the row once an arc came in.
    void insert(std::uint32_t k, const std::vector<Units> &values, std::uint64_t &steps) {
        known_.resize(values.size(), false);
        distances_.resize(values.size(), 0);
        if (follow(k, values)) {
            settle(values, steps);
        }
    }

    Units distance(std::uint32_t node) const { return distances_[node]; }

  private:
    // How long a path is beside what the values say, the greatest first for the heap.
    using Waiting = std::pair<Units, std::uint32_t>;

    Units beside(std::uint32_t node, const std::vector<Units> &values) const {
        const Units ahead = values[node] - values[node_];
        return distances_[node] - (is_from_ ? ahead : -ahead);
    }

    bool ask(std::uint32_t node, Units distance, const std::vector<Units> &values) {
        if (known_[node] && distances_[node] <= distance) {
            return false;
        }
        known_[node] = true;
        distances_[node] = distance;
        waiting_.emplace(-beside(node, values), node);
        return true;
    }

    bool follow(std::uint32_t k, const std::vector<Units> &values) {
        const auto &arc = graph_.arcs[k];
        const auto near = is_from_ ? arc.from : arc.to;
        return known_[near] && ask(is_from_ ? arc.to : arc.from, distances_[near] + arc.weight, values);
    }

    void settle(const std::vector<Units> &values, std::uint64_t &steps) {
        for (; !waiting_.empty();) {
            const auto [beside_it, node] = waiting_.top();
            waiting_.pop();
            // A lesser distance has replaced this one.
            if (-beside_it != beside(node, values)) {
                continue;
            }
            for (const auto k : is_from_ ? graph_.leaving[node] : graph_.arriving[node]) {
                ++steps;
                follow(k, values);
            }
            steps += 2;
        }
        ++steps;
    }

    const Graph &graph_;
    std::uint32_t node_;
    bool is_from_;
    std::vector<bool> known_;
    std::vector<Units> distances_;
    std::priority_queue<Waiting> waiting_;
};

// The session. -------------------------------------------------------------------------------------------------------

class Session {
  public:
    explicit Session(bool repairs) : repairs_{repairs}, earliest_{0, graph_.arcs} {}

    void add(std::uint32_t host, const std::vector<Row> &rows) {
        const auto before = steps();
        for (const auto &row : rows) {
            push_event(host, row);
        }
        if (!repairs_) {
            make_rows_anew();
        }
        of_additions_ += steps() - before;
    }

    void keep(std::uint32_t node) {
        for (const bool is_from : {true, false}) {
            kept_.emplace_back(graph_, node, is_from);
            kept_.back().make_anew(earliest_.values(), row_steps_);
        }
    }

    std::uint32_t first_event(std::uint32_t host) const { return first_events_.at(host); }

    // The least and the greatest difference between the event that was kept first and another.
    std::pair<Units, Units> interval(std::uint32_t node) const { return {-kept_[SOURCE_ROWS + 1].distance(node), kept_[SOURCE_ROWS].distance(node)}; }

    std::size_t events() const { return events_; }
    std::size_t messages() const { return messages_; }
    std::uint64_t steps_of_additions() const { return of_additions_; }

  private:
    // Those of the first reading of the source come before those of kept events.
    static constexpr std::size_t SOURCE_ROWS = 2;

    std::uint64_t steps() const { return earliest_.steps() + row_steps_; }

    std::uint32_t push_node() {
        const auto node = graph_.push_node();
        earliest_.grow(node + 1);
        return node;
    }

    void push_arc(Units weight, std::uint32_t from, std::uint32_t to) {
        const auto k = static_cast<std::uint32_t>(graph_.arcs.size());
        graph_.arcs.push_back({weight, from, to, 0, Kind::Late});
        graph_.leaving[from].push_back(k);
        graph_.arriving[to].push_back(k);
        if (!earliest_.insert(k)) {
            std::cout << "contradiction\n";
            std::exit(1);
        }
        for (auto &row : kept_) {
            if (repairs_) {
                row.insert(k, earliest_.values(), row_steps_);
            }
        }
    }

    void push_span(std::uint32_t host, std::pair<std::uint64_t, std::uint32_t> low, std::pair<std::uint64_t, std::uint32_t> high) {
        const Units span = high.first - low.first;
        const auto drift = host == 0 ? 0 : DRIFT;
        push_arc(span * (UNITS_OF_A_NS + drift), low.second, high.second);
        push_arc(-span * (UNITS_OF_A_NS - drift), high.second, low.second);
    }

    // The node of a clock's reading, which comes between those that are there.
    std::uint32_t reading(std::uint32_t host, std::uint64_t stamp) {
        auto &readings = readings_[host];
        const auto above = readings.lower_bound(stamp);
        if (above != readings.end() && above->first == stamp) {
            return above->second;
        }
        const auto node = push_node();
        const auto here = readings.emplace_hint(above, stamp, node);
        if (here != readings.begin()) {
            push_span(host, *std::prev(here), *here);
        }
        if (std::next(here) != readings.end()) {
            push_span(host, *here, *std::next(here));
        }
        if (host == 0 && kept_.empty()) {
            keep(node);
        }
        return node;
    }

    void push_event(std::uint32_t host, const Row &row) {
        const auto event = push_node();
        const auto read = reading(host, row.stamp);
        if (first_events_.count(host) == 0) {
            first_events_[host] = event;
        }
        ++events_;
        push_arc(delay_units(LATE), read, event);
        push_arc(0, event, read);
        const auto other = others_.emplace(row.message, event);
        if (other.second) {
            return;
        }
        const auto send = row.is_send ? event : other.first->second;
        const auto receive = row.is_send ? other.first->second : event;
        ++messages_;
        push_arc(delay_units(MOST), send, receive);
        push_arc(-delay_units(LEAST), receive, send);
    }

    void make_rows_anew() {
        for (auto &row : kept_) {
            row.make_anew(earliest_.values(), row_steps_);
        }
    }

    bool repairs_;
    Graph graph_;
    Earliest earliest_;
    std::vector<KeptRow> kept_;
    std::array<std::map<std::uint64_t, std::uint32_t>, HOSTS> readings_;
    std::unordered_map<std::uint32_t, std::uint32_t> first_events_;
    // The event of each message that came first.
    std::unordered_map<std::uint32_t, std::uint32_t> others_;
    std::size_t events_ = 0;
    std::size_t messages_ = 0;
    std::uint64_t row_steps_ = 0;
    std::uint64_t of_additions_ = 0;
};

// The additions of a batch; how many there were.
std::uint32_t add_batch(Session &session, const Batch &batch) {
    std::uint32_t additions = 0;
    for (std::uint32_t host = 0; host < HOSTS; ++host) {
        if (!batch[host].empty()) {
            session.add(host, batch[host]);
            ++additions;
        }
    }
    return additions;
}

void print_answer(const Session &session, const char *number) {
    std::string text = joined({"trial", number, "events", std::to_string(session.events()), "messages", std::to_string(session.messages())});
    text.push_back('\n');
    for (std::uint32_t host = 1; host < HOSTS; ++host) {
        const auto [least, greatest] = session.interval(session.first_event(host));
        text += "interval ";
        append_ns(text, least);
        text.push_back(' ');
        append_ns(text, greatest);
        text.push_back('\n');
    }
    std::cout << text;
}

void conduct(bool repairs, const char *number) {
    Session session{repairs};
    std::uint32_t done = 0;
    for (const auto &batch : workload(std::strtoull(number, nullptr, 10))) {
        const auto before = session.steps_of_additions();
        const auto additions = add_batch(session, batch);
        std::cerr << "batch " << ++done << " events " << session.events() << " additions " << additions << " steps "
                  << session.steps_of_additions() - before << '\n';
        for (std::uint32_t host = 0; done == 1 && host < HOSTS; ++host) {
            session.keep(session.first_event(host));
        }
    }
    print_answer(session, number);
}

} // namespace

int main(int count, char **words) {
    const std::string_view way = count == 3 ? words[1] : "";
    if (way != "anew" && way != "kept") {
        std::cout << "usage: trial anew N | trial kept N\n";
        return 2;
    }
    conduct(way == "kept", words[2]);
    return 0;
}
