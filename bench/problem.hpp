// The problem text as `tracesync` reads it, with the same refusals at the same lines, by the means of the C++17
// library; and what else the programs of this folder share: ns texts, and the reading of a file.

#ifndef BENCH_PROBLEM_HPP
#define BENCH_PROBLEM_HPP

#include <algorithm>
#include <array>
#include <charconv>
#include <cstddef>
#include <cstdint>
#include <fstream>
#include <initializer_list>
#include <iostream>
#include <optional>
#include <string>
#include <string_view>
#include <system_error>
#include <unordered_map>
#include <unordered_set>
#include <utility>
#include <vector>

namespace bench {

// Real times, weights and differences, in units of 1e-9 ns.
using Units = __int128;

constexpr std::uint64_t UNITS_OF_A_NS = 1'000'000'000;
constexpr std::uint64_t NANO_LIMIT = std::uint64_t{1} << 62;
constexpr std::uint64_t TEXT_LIMIT = std::uint64_t{1} << 34;
constexpr std::size_t CLOCK_LIMIT = 65'536;
constexpr std::size_t EVENT_LIMIT = 1 << 24;
constexpr std::size_t MESSAGE_LIMIT = 1 << 24;

enum class Cause { Syntax = 1, Name, Range, Limit, Long };

struct Refusal {
    Cause cause;
    std::uint32_t line;
};

struct ReadFault {};

struct Clock {
    std::string_view name;
    std::uint32_t shortest;
    std::uint32_t longest;
    std::uint64_t early;
    std::uint64_t late;
};

struct Event {
    std::string_view name;
    std::uint64_t stamp;
    std::uint32_t clock;
    std::uint32_t reading;
};

struct Message {
    std::uint32_t send;
    std::uint32_t receive;
    std::uint64_t least;
    std::optional<std::uint64_t> most;
};

struct Reading {
    std::uint32_t clock;
    std::uint64_t stamp;
};

// The events, then the readings by clock and stamp: an execution has one value for each, in this order.
struct Problem {
    std::vector<Clock> clocks;
    std::vector<Event> events;
    std::vector<Message> messages;
    std::vector<Reading> readings;
};

// Spellings. ---------------------------------------------------------------------------------------------------------

inline constexpr auto is_digit = [](char c) { return c >= '0' && c <= '9'; };

inline constexpr auto is_clock_byte = [](char c) {
    return is_digit(c) || (c >= 'A' && c <= 'Z') || (c >= 'a' && c <= 'z') || c == '.' || c == '_' || c == '-';
};

inline constexpr auto is_event_byte = [](char c) { return is_clock_byte(c) || c == '#'; };

template <typename Test> bool all_are(std::string_view word, const Test &test) {
    return std::all_of(word.begin(), word.end(), test);
}

inline bool is_clock_name(std::string_view word) {
    return !word.empty() && word.size() <= 32 && all_are(word, is_clock_byte);
}

inline bool is_event_name(std::string_view word) {
    return !word.empty() && word.size() <= 48 && all_are(word, is_event_byte);
}

inline bool is_decimal(std::string_view word) {
    return !word.empty() && (word[0] != '0' || word.size() == 1) && all_are(word, is_digit);
}

// The number that a decimal spells, below 2^64.
inline std::optional<std::uint64_t> number_of(std::string_view decimal) {
    std::uint64_t number = 0;
    const auto [end, error] = std::from_chars(decimal.data(), decimal.data() + decimal.size(), number);
    return error == std::errc{} ? std::optional{number} : std::nullopt;
}

// Lines. -------------------------------------------------------------------------------------------------------------

class Lines {
  public:
    explicit Lines(std::string_view text) : rest_{text} {
        if (text.size() > TEXT_LIMIT) {
            throw Refusal{Cause::Long, 0};
        }
    }

    // The next line, without its line feed.
    std::string_view next() {
        ++number_;
        const auto end = rest_.find('\n');
        if (end == std::string_view::npos) {
            refuse(Cause::Syntax);
        }
        const auto line = rest_.substr(0, end);
        rest_.remove_prefix(end + 1);
        return line;
    }

    void expect(std::string_view line) {
        if (next() != line) {
            refuse(Cause::Syntax);
        }
    }

    // Nothing may follow the end line.
    void finish() {
        if (!rest_.empty()) {
            throw Refusal{Cause::Syntax, number_ + 1};
        }
    }

    void check(bool holds, Cause cause) const {
        if (!holds) {
            refuse(cause);
        }
    }

    // The words between single spaces, as many as are wanted.
    template <std::size_t N> std::array<std::string_view, N> words(std::string_view line) const {
        std::array<std::string_view, N> words;
        for (std::size_t k = 0; k + 1 < N; ++k) {
            const auto end = line.find(' ');
            check(end != std::string_view::npos, Cause::Syntax);
            words[k] = line.substr(0, end);
            line.remove_prefix(end + 1);
        }
        words[N - 1] = line;
        return words;
    }

    std::string_view clock_name(std::string_view word) const {
        check(is_clock_name(word), Cause::Syntax);
        return word;
    }

    std::string_view event_name(std::string_view word) const {
        check(is_event_name(word), Cause::Syntax);
        return word;
    }

    // The number of a decimal; none from 2^64 on.
    std::optional<std::uint64_t> decimal(std::string_view word) const {
        check(is_decimal(word), Cause::Syntax);
        return number_of(word);
    }

    std::uint64_t within(std::optional<std::uint64_t> number, std::uint64_t most) const {
        check(number && *number <= most, Cause::Range);
        return *number;
    }

    std::uint64_t nano(std::optional<std::uint64_t> number) const { return within(number, NANO_LIMIT - 1); }

    // The units of an ns text; none past 2^120 in absolute value.
    std::optional<Units> ns(std::string_view word) const;

    std::uint32_t number() const { return number_; }

  private:
    [[noreturn]] void refuse(Cause cause) const { throw Refusal{cause, number_}; }

    std::string_view rest_;
    std::uint32_t number_ = 0;
};

inline std::optional<Units> Lines::ns(std::string_view word) const {
    const bool negative = !word.empty() && word[0] == '-';
    if (negative) {
        word.remove_prefix(1);
    }
    check(word.size() > 10, Cause::Syntax);
    const auto whole = word.substr(0, word.size() - 10);
    const auto rest = word.substr(word.size() - 9);
    check(word[word.size() - 10] == '.' && is_decimal(whole), Cause::Syntax);
    check(all_are(rest, is_digit), Cause::Syntax);
    Units units = 0;
    for (const char c : whole) {
        units = units * 10 + (c - '0');
        if (units >= Units{1} << 92) {
            return std::nullopt;
        }
    }
    units = units * UNITS_OF_A_NS + *number_of(rest);
    check(!negative || units != 0, Cause::Syntax);
    if (units > Units{1} << 120) {
        return std::nullopt;
    }
    return negative ? -units : units;
}

// The problem. -------------------------------------------------------------------------------------------------------

class ProblemReader {
  public:
    explicit ProblemReader(std::string_view text) : lines_{text} {
        const auto lines = static_cast<std::size_t>(std::count(text.begin(), text.end(), '\n'));
        problem_.events.reserve(std::min(lines, EVENT_LIMIT));
        event_places_.reserve(std::min(lines, EVENT_LIMIT));
        pairs_.reserve(std::min(lines, MESSAGE_LIMIT));
    }

    Problem read() {
        lines_.expect("problem 1");
        for (auto line = lines_.next(); line != "end"; line = lines_.next()) {
            const auto first = line.substr(0, line.find(' '));
            if (first == "clock") {
                read_clock(line);
            } else if (first == "event") {
                read_event(line);
            } else {
                lines_.check(first == "message", Cause::Syntax);
                read_message(line);
            }
        }
        lines_.finish();
        list_readings();
        return std::move(problem_);
    }

  private:
    void read_clock(std::string_view line) {
        lines_.check(problem_.events.empty() && problem_.messages.empty(), Cause::Syntax);
        const auto [first, word, shortest, longest, early, late] = lines_.words<6>(line);
        const auto name = lines_.clock_name(word);
        const std::array numbers{lines_.decimal(shortest), lines_.decimal(longest), lines_.decimal(early),
                                 lines_.decimal(late)};
        lines_.check(clock_places_.find(name) == clock_places_.end(), Cause::Name);
        const Clock clock{name, static_cast<std::uint32_t>(lines_.within(numbers[0], 999'999'999)),
                          static_cast<std::uint32_t>(lines_.within(numbers[1], 1'000'000'000)),
                          lines_.nano(numbers[2]), lines_.nano(numbers[3])};
        lines_.check(problem_.clocks.size() < CLOCK_LIMIT, Cause::Limit);
        clock_places_.emplace(name, problem_.clocks.size());
        problem_.clocks.push_back(clock);
    }

    void read_event(std::string_view line) {
        lines_.check(problem_.messages.empty(), Cause::Syntax);
        const auto [first, event_word, clock_word, stamp_word] = lines_.words<4>(line);
        const auto name = lines_.event_name(event_word);
        const auto clock_name = lines_.clock_name(clock_word);
        const auto stamp = lines_.decimal(stamp_word);
        const auto clock = clock_places_.find(clock_name);
        lines_.check(clock != clock_places_.end(), Cause::Name);
        const auto [place, is_new] = event_places_.try_emplace(name, problem_.events.size());
        lines_.check(is_new, Cause::Name);
        const Event event{name, lines_.nano(stamp), clock->second, 0};
        lines_.check(problem_.events.size() < EVENT_LIMIT, Cause::Limit);
        problem_.events.push_back(event);
    }

    void read_message(std::string_view line) {
        const auto [first, send_word, receive_word, least_word, most_word] = lines_.words<5>(line);
        const auto send_name = lines_.event_name(send_word);
        const auto receive_name = lines_.event_name(receive_word);
        const auto least = lines_.decimal(least_word);
        const bool has_most = most_word != "none";
        const auto most = has_most ? lines_.decimal(most_word) : std::nullopt;
        const auto send = event_place(send_name);
        const auto receive = event_place(receive_name);
        lines_.check(send != receive, Cause::Name);
        lines_.check(pairs_.insert(std::uint64_t{send} << 32 | receive).second, Cause::Name);
        Message message{send, receive, lines_.nano(least), std::nullopt};
        if (has_most) {
            message.most = lines_.nano(most);
        }
        lines_.check(problem_.messages.size() < MESSAGE_LIMIT, Cause::Limit);
        problem_.messages.push_back(message);
    }

    std::uint32_t event_place(std::string_view name) const {
        const auto place = event_places_.find(name);
        lines_.check(place != event_places_.end(), Cause::Name);
        return place->second;
    }

    // Sorts the stamps of the events by clock and stamp, and gives each pair of these one reading.
    void list_readings() {
        struct Stamp {
            std::uint64_t stamp;
            std::uint32_t clock;
            std::uint32_t event;
        };
        std::vector<Stamp> stamps;
        stamps.reserve(problem_.events.size());
        for (std::size_t k = 0; k < problem_.events.size(); ++k) {
            const auto &event = problem_.events[k];
            stamps.push_back({event.stamp, event.clock, static_cast<std::uint32_t>(k)});
        }
        std::sort(stamps.begin(), stamps.end(), [](const Stamp &a, const Stamp &b) {
            return a.clock != b.clock ? a.clock < b.clock : a.stamp < b.stamp;
        });
        auto &readings = problem_.readings;
        for (const auto &s : stamps) {
            if (readings.empty() || readings.back().clock != s.clock || readings.back().stamp != s.stamp) {
                readings.push_back({s.clock, s.stamp});
            }
            problem_.events[s.event].reading = static_cast<std::uint32_t>(readings.size() - 1);
        }
    }

    Lines lines_;
    Problem problem_;
    std::unordered_map<std::string_view, std::uint32_t> clock_places_;
    std::unordered_map<std::string_view, std::uint32_t> event_places_;
    std::unordered_set<std::uint64_t> pairs_;
};

// Numbers and words as they are printed. -----------------------------------------------------------------------------

// Appends a number with zeros before it, so that it has this many digits.
inline void append_padded(std::string &text, std::uint64_t number, std::size_t digits) {
    const auto decimal = std::to_string(number);
    text.append(digits - decimal.size(), '0');
    text += decimal;
}

inline void append_ns(std::string &text, Units units) {
    constexpr std::uint64_t part = 1'000'000'000'000'000'000;
    if (units < 0) {
        text.push_back('-');
        units = -units;
    }
    const Units whole = units / UNITS_OF_A_NS;
    if (whole >= part) {
        text += std::to_string(static_cast<std::uint64_t>(whole / part));
        append_padded(text, static_cast<std::uint64_t>(whole % part), 18);
    } else {
        text += std::to_string(static_cast<std::uint64_t>(whole));
    }
    text.push_back('.');
    append_padded(text, static_cast<std::uint64_t>(units % UNITS_OF_A_NS), 9);
}

inline std::string ns_text(Units units) {
    std::string text;
    append_ns(text, units);
    return text;
}

inline Units delay_units(std::uint64_t ns) { return Units{ns} * UNITS_OF_A_NS; }

inline std::string joined(std::initializer_list<std::string_view> words) {
    std::string text;
    for (const auto word : words) {
        text += text.empty() ? "" : " ";
        text += word;
    }
    return text;
}

// Files and refusals. ------------------------------------------------------------------------------------------------

inline std::string text_in(const char *path) {
    std::ifstream file{path, std::ios::binary | std::ios::ate};
    if (!file) {
        throw ReadFault{};
    }
    std::string text(static_cast<std::size_t>(file.tellg()), '\0');
    file.seekg(0);
    if (!file.read(text.data(), static_cast<std::streamsize>(text.size()))) {
        throw ReadFault{};
    }
    return text;
}

inline int refused(const char *kind, const Refusal &refusal, int status) {
    std::cout << kind << ' ' << static_cast<int>(refusal.cause) << ' ' << refusal.line << '\n';
    return status;
}

// A run with the status 4 of a refused problem text, or with what is done with the problem in the file.
template <typename Use> int with_problem(const char *path, Use use) {
    const auto text = text_in(path);
    Problem problem;
    try {
        problem = ProblemReader{text}.read();
    } catch (const Refusal &refusal) {
        return refused("problem", refusal, 4);
    }
    return use(problem);
}

} // namespace bench

#endif
