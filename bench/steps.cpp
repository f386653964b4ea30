// Counts the steps of `tracesync solve` in its own order of insertion, the merged one, and in that of the short list.
//
//     steps count PROBLEM     the steps in both orders
//     steps merged PROBLEM    those in the merged order alone
//     steps solve PROBLEM     the certificate that the merged order ends with
//
// In the merged order the events of all clocks come in one after another, by the time of their stamps. What a step is, insertion.hpp
// says.

#include "insertion.hpp"

#include <iostream>
#include <new>
#include <string_view>
#include <vector>

namespace {

using namespace bench;

// The program. -------------------------------------------------------------------------------------------------------

void print_size(const Problem &problem, const std::vector<Arc> &arcs) {
    std::cout << "nodes " << nodes_of(problem) << " arcs " << arcs.size() << '\n';
}

int count(const Problem &problem) {
    const auto listed = short_list(problem);
    const auto merged = merged_list(problem);
    Earliest by_list{nodes_of(problem), listed};
    Earliest by_merge{nodes_of(problem), merged};
    const bool is_solved = by_list.insert_all();
    const bool is_same = by_merge.insert_all() == is_solved && (!is_solved || by_list.values() == by_merge.values());
    print_size(problem, listed);
    std::cout << "steps short " << by_list.steps() << " merged " << by_merge.steps() << '\n'
              << (!is_same    ? "the orders differ"
                  : is_solved ? "same values"
                              : "contradictions")
              << '\n';
    return is_same ? 0 : 1;
}

int count_merged(const Problem &problem) {
    const auto arcs = merged_list(problem);
    Earliest earliest{nodes_of(problem), arcs};
    const bool is_solved = earliest.insert_all();
    print_size(problem, arcs);
    std::cout << "steps merged " << earliest.steps() << '\n' << (is_solved ? "solved" : "contradiction") << '\n';
    return 0;
}

int solve(const Problem &problem) {
    const auto arcs = merged_list(problem);
    Earliest earliest{nodes_of(problem), arcs};
    if (earliest.insert_all()) {
        print_run(problem, earliest.values());
    } else {
        print_cycle(problem, earliest.cycle());
    }
    return 0;
}

int run(std::string_view command, const Problem &problem) {
    if (command == "count") {
        return count(problem);
    }
    return command == "merged" ? count_merged(problem) : solve(problem);
}

} // namespace

int main(int count, char **words) {
    const std::string_view command = count == 3 ? words[1] : "";
    if (command != "count" && command != "merged" && command != "solve") {
        std::cout << "usage: steps count PROBLEM | merged PROBLEM | solve PROBLEM\n";
        return 2;
    }
    try {
        return with_problem(words[2], [&](const Problem &problem) { return run(command, problem); });
    } catch (const ReadFault &) {
        std::cout << "read fault\n";
        return 7;
    } catch (const std::bad_alloc &) {
        return 9;
    }
}
