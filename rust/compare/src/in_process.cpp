// A solver once through: made, handed the clauses, asked, released. `literals` has each clause with
// a 0 after it. The answer is 10 where the clauses can be kept and 20 where they cannot.

#include <cstddef>
#include <cstdlib>

#if defined PICOSAT

extern "C" {
#include <picosat/picosat.h>
}

extern "C" int solve(const int *literals, std::size_t count) noexcept {
    PicoSAT *solver = picosat_init();
    for (std::size_t i = 0; i < count; i++) picosat_add(solver, literals[i]);
    int answer = picosat_sat(solver, -1);
    picosat_reset(solver);
    return answer;
}

#elif defined MINISAT

// The solver without preprocessing, which takes longer than it saves on books of this size.
#include <minisat/core/Solver.h>

extern "C" int solve(const int *literals, std::size_t count) noexcept {
    Minisat::Solver solver;
    Minisat::vec<Minisat::Lit> clause;
    for (std::size_t i = 0; i < count; i++) {
        int literal = literals[i];
        if (literal == 0) {
            solver.addClause(clause);
            clause.clear();
            continue;
        }
        int variable = std::abs(literal) - 1;
        while (variable >= solver.nVars()) solver.newVar();
        clause.push(Minisat::mkLit(variable, literal < 0));
    }
    return solver.solve() ? 10 : 20;
}

#elif defined CADICAL

#include <cadical.hpp>

extern "C" int solve(const int *literals, std::size_t count) noexcept {
    CaDiCaL::Solver solver;
    solver.set("quiet", 1);
    for (std::size_t i = 0; i < count; i++) solver.add(literals[i]);
    return solver.solve();
}

#endif
