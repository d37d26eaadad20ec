/* parsolve for C++11: vectors in, structs out, and exceptions, over the calls of parsolve.h, which explains games in compressed sparse rows and
 * the codes that calls return. docs/library.md shows a program. */
#ifndef PARSOLVE_HPP
#define PARSOLVE_HPP
#include <cstddef>
#include <cstdint>
#include <cstdlib>
#include <memory>
#include <new>
#include <stdexcept>
#include <string>
#include <vector>
#include "parsolve.h"

namespace parsolve {

/* A game. Its vertices are numbered from 0, in the order in which they are added. */
struct Game {
    std::vector<std::uint32_t> priorities;
    std::vector<std::uint8_t> owners;
    std::vector<std::uint32_t> starts{0};
    std::vector<std::uint32_t> successors;

    void add(std::uint32_t priority, std::uint8_t owner, const std::vector<std::uint32_t> &to) {
        priorities.push_back(priority);
        owners.push_back(owner);
        successors.insert(successors.end(), to.begin(), to.end());
        starts.push_back(static_cast<std::uint32_t>(successors.size()));
    }
};

/* The winner of each vertex, and the winner's move if the winner owns the vertex, otherwise PARSOLVE_NO_CHOICE. */
struct Solution {
    std::vector<std::uint8_t> winners;
    std::vector<std::uint32_t> strategy;
};

/* The verdict of `check`. PARSOLVE_LEAVES: an edge from `vertex` to `to`; PARSOLVE_CYCLE: the vertices of a cycle. */
struct Verdict {
    std::uint32_t code; /* PARSOLVE_OK, PARSOLVE_LEAVES or PARSOLVE_CYCLE */
    std::uint32_t vertex;
    std::uint32_t to;
    std::vector<std::uint32_t> cycle;
};

/* Why a call has no answer: any other code except PARSOLVE_OUT_OF_MEMORY, for which the calls throw std::bad_alloc. */
class Fault : public std::runtime_error {
  public:
    std::uint32_t code;
    std::uint32_t vertex; /* the vertex at fault, or PARSOLVE_NO_CHOICE */

    Fault(std::uint32_t code, std::uint32_t vertex, const std::string &text) : std::runtime_error(text), code(code), vertex(vertex) {}
};

namespace detail {

/* A pointer to the numbers of a vector, never null. */
template <class T> inline T *at(std::vector<T> &numbers) {
    static T nothing;
    return numbers.empty() ? &nothing : numbers.data();
}

template <class T> inline const T *at(const std::vector<T> &numbers) {
    static const T nothing = T();
    return numbers.empty() ? &nothing : numbers.data();
}

inline parsolve_game passed(const Game &game) {
    return {{at(game.priorities), game.priorities.size()},
            {at(game.owners), game.owners.size()},
            {at(game.starts), game.starts.size()},
            {at(game.successors), game.successors.size()}};
}

[[noreturn]] inline void raise(std::uint32_t code, std::uint32_t vertex) {
    if (code == PARSOLVE_OUT_OF_MEMORY)
        throw std::bad_alloc();
    const std::string where = vertex == PARSOLVE_NO_CHOICE ? "" : "vertex " + std::to_string(vertex) + ": ";
    throw Fault(code, vertex, where + parsolve_fault_text(code));
}

} // namespace detail

inline Solution solve(const Game &game) {
    Solution made{std::vector<std::uint8_t>(game.priorities.size()), std::vector<std::uint32_t>(game.priorities.size())};
    const parsolve_game given = detail::passed(game);
    std::uint32_t vertex = PARSOLVE_NO_CHOICE;
    const std::uint32_t code = parsolve_solve(&given, detail::at(made.winners), made.winners.size(), detail::at(made.strategy),
                                              made.strategy.size(), &vertex);
    if (code != PARSOLVE_OK)
        detail::raise(code, vertex);
    return made;
}

inline Verdict check(const Game &game, const Solution &solution) {
    const parsolve_game given = detail::passed(game);
    parsolve_found found = {PARSOLVE_NO_CHOICE, PARSOLVE_NO_CHOICE, 0};
    std::vector<std::uint32_t> cycle(game.priorities.size());
    const std::uint32_t code = parsolve_check(&given, detail::at(solution.winners), solution.winners.size(), detail::at(solution.strategy),
                                              solution.strategy.size(), &found, detail::at(cycle), cycle.size());
    if (code != PARSOLVE_OK && code != PARSOLVE_LEAVES && code != PARSOLVE_CYCLE)
        detail::raise(code, found.vertex);
    cycle.resize(code == PARSOLVE_CYCLE ? found.length : 0);
    return {code, found.vertex, found.to, cycle};
}

/* Returns what `parsolve COMMAND` prints for a text; `command` is one of the numbers PARSOLVE_COMMAND_.. */
inline std::string answer(std::uint32_t command, const std::string &text) {
    const std::vector<std::uint8_t> input(text.begin(), text.end());
    parsolve_text made = PARSOLVE_NO_TEXT;
    const std::uint32_t code = parsolve_answer_new(command, detail::at(input), input.size(), &made);
    const std::unique_ptr<std::uint8_t, void (*)(void *)> owned(made.bytes_length == 0 ? nullptr : made.bytes, std::free);
    const std::string said(made.bytes, made.bytes + made.bytes_length);
    if (code == PARSOLVE_FAULT)
        throw Fault(code, PARSOLVE_NO_CHOICE, said.substr(0, said.find('\n')));
    if (code != PARSOLVE_OK)
        detail::raise(code, PARSOLVE_NO_CHOICE);
    return said;
}

} // namespace parsolve
#endif
