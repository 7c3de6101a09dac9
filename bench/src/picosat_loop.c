/* The backbone by a loop over PicoSAT: a first model, then one literal at a time, and every model drops what it gives another value.
   Status bytes are those of the rules: 1 free, 2 forced true, 3 forced false. Returns 0, or 20 if there is no model. */
#include <picosat/picosat.h>
#include <stddef.h>
#include <stdint.h>

uint32_t bench_picosat(const int32_t *entries, size_t entries_len, uint32_t vars, uint8_t *status);
const char *bench_picosat_version(void);

const char *bench_picosat_version(void) { return picosat_version(); }

uint32_t bench_picosat(const int32_t *entries, size_t entries_len, uint32_t vars, uint8_t *status) {
    PicoSAT *solver = picosat_init();
    uint32_t answer = 20;
    picosat_adjust(solver, (int)vars);
    for (size_t i = 0; i < entries_len; i++) picosat_add(solver, entries[i]);
    for (uint32_t v = 0; v < vars; v++) status[v] = 0;
    if (picosat_sat(solver, -1) == PICOSAT_SATISFIABLE) {
        int8_t first[256];
        answer = 0;
        for (uint32_t v = 0; v < vars; v++) first[v] = (int8_t)(picosat_deref(solver, (int)v + 1) > 0 ? 1 : -1);
        for (uint32_t v = 0; v < vars; v++) {
            int literal = first[v] * ((int)v + 1);
            if (status[v] != 0) continue;
            picosat_assume(solver, -literal);
            if (picosat_sat(solver, -1) == PICOSAT_SATISFIABLE) {
                for (uint32_t w = v; w < vars; w++) {
                    int value = picosat_deref(solver, (int)w + 1) > 0 ? 1 : -1;
                    if (status[w] == 0 && value != first[w]) status[w] = 1;
                }
            } else {
                status[v] = literal > 0 ? 2 : 3;
                picosat_add(solver, literal);
                picosat_add(solver, 0);
            }
        }
    }
    picosat_reset(solver);
    return answer;
}
