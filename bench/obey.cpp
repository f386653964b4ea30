// Judges an execution by the bounds of a problem: the same answers as `tracesync obey PROBLEM EXEC`, by the means of
// the C++17 library. It is there to be compared with, in its output and in its speed.

#include "problem.hpp"

#include <cstddef>
#include <iostream>
#include <new>
#include <optional>
#include <string>
#include <string_view>
#include <vector>

namespace {

using namespace bench;

// The execution. -----------------------------------------------------------------------------------------------------

Units value_of(const Lines &lines, std::optional<Units> value) {
    lines.check(value.has_value(), Cause::Range);
    return *value;
}

std::vector<Units> read_execution(const Problem &problem, std::string_view text) {
    Lines lines{text};
    lines.expect("execution 1");
    std::vector<Units> values;
    values.reserve(problem.events.size() + problem.readings.size());
    for (const auto &event : problem.events) {
        const auto [first, name_word, value_word] = lines.words<3>(lines.next());
        lines.check(first == "event", Cause::Syntax);
        const auto name = lines.event_name(name_word);
        const auto value = lines.ns(value_word);
        lines.check(name == event.name, Cause::Name);
        values.push_back(value_of(lines, value));
    }
    for (const auto &reading : problem.readings) {
        const auto [first, clock_word, stamp_word, value_word] = lines.words<4>(lines.next());
        lines.check(first == "reading", Cause::Syntax);
        const auto clock = lines.clock_name(clock_word);
        const auto stamp = lines.decimal(stamp_word);
        const auto value = lines.ns(value_word);
        lines.check(clock == problem.clocks[reading.clock].name && stamp == reading.stamp, Cause::Name);
        values.push_back(value_of(lines, value));
    }
    lines.expect("end");
    lines.finish();
    return values;
}

// The bounds. --------------------------------------------------------------------------------------------------------

// The words behind `broken`, where `to - from` is past the weight.
template <typename Bound>
std::optional<std::string> judge(Units from, Units to, Units weight, const Bound &bound) {
    const Units difference = to - from;
    if (difference <= weight) {
        return std::nullopt;
    }
    return joined({bound(), ns_text(weight), ns_text(difference)});
}

// The first broken bound: spans of neighbouring readings, then stamps, then messages.
std::optional<std::string> first_broken(const Problem &problem, const std::vector<Units> &values) {
    const auto *readings = values.data() + problem.events.size();
    for (std::size_t k = 1; k < problem.readings.size(); ++k) {
        const auto &s = problem.readings[k - 1];
        const auto &t = problem.readings[k];
        if (s.clock != t.clock) {
            continue;
        }
        const auto &clock = problem.clocks[s.clock];
        const Units span = t.stamp - s.stamp;
        const auto words = [&](const char *kind) {
            return joined({kind, clock.name, std::to_string(s.stamp), std::to_string(t.stamp)});
        };
        const Units most = span * (UNITS_OF_A_NS + clock.longest);
        if (auto broken = judge(readings[k - 1], readings[k], most, [&] { return words("span-most"); })) {
            return broken;
        }
        const Units least = span * (UNITS_OF_A_NS - clock.shortest);
        if (auto broken = judge(readings[k], readings[k - 1], -least, [&] { return words("span-least"); })) {
            return broken;
        }
    }
    for (std::size_t k = 0; k < problem.events.size(); ++k) {
        const auto &event = problem.events[k];
        const auto &clock = problem.clocks[event.clock];
        const auto words = [&](const char *kind) { return joined({kind, event.name}); };
        const Units reading = readings[event.reading];
        if (auto broken = judge(reading, values[k], delay_units(clock.late), [&] { return words("late"); })) {
            return broken;
        }
        if (auto broken = judge(values[k], reading, delay_units(clock.early), [&] { return words("early"); })) {
            return broken;
        }
    }
    for (const auto &message : problem.messages) {
        const auto words = [&](const char *kind) {
            return joined({kind, problem.events[message.send].name, problem.events[message.receive].name});
        };
        const Units send = values[message.send];
        const Units receive = values[message.receive];
        if (message.most) {
            const Units most = delay_units(*message.most);
            if (auto broken = judge(send, receive, most, [&] { return words("delay-most"); })) {
                return broken;
            }
        }
        const Units least = delay_units(message.least);
        if (auto broken = judge(receive, send, -least, [&] { return words("delay-least"); })) {
            return broken;
        }
    }
    return std::nullopt;
}

// The program. -------------------------------------------------------------------------------------------------------

int judge(const Problem &problem, const char *execution_path) {
    const auto execution_text = text_in(execution_path);
    std::vector<Units> values;
    try {
        values = read_execution(problem, execution_text);
    } catch (const Refusal &refusal) {
        return refused("execution", refusal, 5);
    }
    if (const auto broken = first_broken(problem, values)) {
        std::cout << "broken " << *broken << '\n';
        return 1;
    }
    std::cout << "obeys\n";
    return 0;
}

} // namespace

int main(int count, char **words) {
    if (count != 4 || std::string_view{words[1]} != "obey") {
        std::cout << "usage: obey obey PROBLEM EXEC\n";
        return 2;
    }
    try {
        return with_problem(words[2], [&](const Problem &problem) { return judge(problem, words[3]); });
    } catch (const ReadFault &) {
        std::cout << "read fault\n";
        return 7;
    } catch (const std::bad_alloc &) {
        return 9;
    }
}
