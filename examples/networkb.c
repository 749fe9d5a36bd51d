/* Prints the KKT matrix of document 01's network B: the answer's number and triplet count, then each triplet's row,
 * column and value's bits. Build it against libcapi_sens.a:
 *
 *   harness/libraries
 *   cc -I include examples/networkb.c target/staticlib/libcapi_sens.a -o networkb
 */
#include <inttypes.h>
#include <stdio.h>
#include <string.h>

#include "cisternaloe.h"

/* n 2, m 1, k 1, R 1, S, q, T 0, allow_shed 0, objective 1; br_from, br_to, gen_bus, segments, references; flags */
static const uint32_t wiring[] = {2, 1, 1, 1, 0, 0, 0, 0, 1, 0, 1, 0, 0, 0, 1, 1, 1};

/* base; b, sw, shift, flow_offset, fmax, angmin, angmax; gmin, gmax, cq, cl, cc; c_shed, demand, shunt, HVDC */
static const double readings[] = {100, -4, 1, 0, 0, 4, -0.5, 0.5, 0, 2, 1, 0, 0, 3, 3, 0, 1, 0, 0, 0, 0};

/* va, pg, f, psh, nu_bal, lam_ub, lam_lb, rho_ub, rho_lb, mu_ub, mu_lb, gamma_ub, gamma_lb, objective */
static const double solution[] = {0, -0.25, 1, 1, 0, 0, 2, 2, 0, 0, 0, 0, 0, 0, 1, 1, 0, 0, 1};

/* 26m + 10n + 9k + 2R, the most triplets that such a network can have */
enum { MOST = 57 };

int main(void) {
    uint32_t rows[MOST], cols[MOST];
    double values[MOST];
    const uint64_t answer = sens_kkt_triplets(
        wiring, sizeof wiring / sizeof *wiring, readings, sizeof readings / sizeof *readings, wiring, 0, readings, 0,
        solution, sizeof solution / sizeof *solution, rows, MOST, cols, MOST, values, MOST);
    const uint64_t number = answer % 256, count = answer / 256;
    printf("%" PRIu64 " %" PRIu64 "\n", number, count);
    for (uint64_t at = 0; at < count; at++) {
        uint64_t bits;
        memcpy(&bits, &values[at], sizeof bits);
        printf("%" PRIu32 " %" PRIu32 " %016" PRIx64 "\n", rows[at], cols[at], bits);
    }
    return number != 0;
}
