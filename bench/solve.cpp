// Finds the earliest execution of a problem, or a contradiction: what `tracesync solve PROBLEM` prints, by the means of
// the C++17 library. It is the algorithm of Bellman and Ford over the whole short list, with a queue of the nodes whose
// value has changed.

#include "arcs.hpp"

#include <iostream>
#include <new>
#include <string_view>

namespace {

using namespace bench;

int solve(const Problem &problem) {
    const auto solution = solution_of(problem, short_list(problem));
    if (solution.cycle.empty()) {
        print_run(problem, solution.values);
    } else {
        print_cycle(problem, solution.cycle);
    }
    return 0;
}

} // namespace

int main(int count, char **words) {
    if (count != 3 || std::string_view{words[1]} != "solve") {
        std::cout << "usage: solve solve PROBLEM\n";
        return 2;
    }
    try {
        return with_problem(words[2], solve);
    } catch (const ReadFault &) {
        std::cout << "read fault\n";
        return 7;
    } catch (const std::bad_alloc &) {
        return 9;
    }
}
