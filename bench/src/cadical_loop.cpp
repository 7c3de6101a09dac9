// The backbone by a loop over CaDiCaL: a first model, then one literal at a time, and every model drops what it gives another value.
// Status bytes are those of the rules: 1 free, 2 forced true, 3 forced false. Returns 0, or 20 if there is no model.
#include <cadical.hpp>
#include <cstddef>
#include <cstdint>

static const int satisfiable = 10;

extern "C" const char *bench_cadical_version() { return CaDiCaL::Solver::version(); }

extern "C" uint32_t bench_cadical(const int32_t *entries, size_t entries_len, uint32_t vars, uint8_t *status) {
    CaDiCaL::Solver solver;
    const int n = static_cast<int>(vars);
    solver.set("quiet", 1);
    solver.reserve(n);
    for (size_t i = 0; i < entries_len; i++) solver.add(entries[i]);
    for (int v = 0; v < n; v++) status[v] = 0;
    if (solver.solve() != satisfiable) return 20;
    bool first[256];
    for (int v = 0; v < n; v++) first[v] = solver.val(v + 1) > 0;
    for (int v = 0; v < n; v++) {
        if (status[v] != 0) continue;
        const int literal = first[v] ? v + 1 : -(v + 1);
        solver.assume(-literal);
        if (solver.solve() == satisfiable) {
            for (int w = v; w < n; w++)
                if (status[w] == 0 && (solver.val(w + 1) > 0) != first[w]) status[w] = 1;
        } else {
            status[v] = literal > 0 ? 2 : 3;
            solver.add(literal);
            solver.add(0);
        }
    }
    return 0;
}
