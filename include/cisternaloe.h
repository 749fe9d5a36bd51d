/* The exports of the static libraries: busbar prices and the matrix that says how each price bends.
 *
 * A network is lent as four slices, in the order of document 01: wiring, readings, term_index, term_coefficient. Each
 * slice is a pointer and then a length: in elements, and for an export on bytes (`uint8_t`) in bytes, little-endian; bytes
 * that are no whole number of elements are number 1. Pointers may not be null, also where a length is 0, and a slice that is
 * written overlaps no other.
 *
 * Every call tests all that it is lent, ends, reads only its slices, and answers the lowest number that holds:
 *   0 done
 *   1 size: a count above its limit, segments or terms that don't sum up, a slice of wrong length
 *   2 wiring: an index not below its count; a flag, mask or objective outside its values
 *   3 reading: a word not finite or outside its limits (10^12 for readings and coefficients, 10^15 for a sheet)
 *   4 kind   5 element   6 piecewise cost
 *   7 short: a lent output shorter than the result
 * On 0 the result fills the front of its sheet and later words keep their bits; on any other number no word changes. Unless
 * its comment says otherwise a call that answers a uint64_t answers number + 256 times count, and the count is 0 with every
 * other number; one that answers a uint32_t answers the number alone, and where it is lent a word `count`, that word becomes
 * the count on 0 and else stays as it was.
 */
#ifndef CISTERNALOE_H
#define CISTERNALOE_H

#include <stddef.h>
#include <stdint.h>

#ifdef __cplusplus
extern "C" {
#endif

#define CISTERNALOE_NETWORK                                                                                            \
    const uint32_t *wiring, size_t wiring_length, const double *readings, size_t readings_length,                     \
        const uint32_t *term_index, size_t term_index_length, const double *term_coefficient,                         \
        size_t term_coefficient_length

#define CISTERNALOE_NETWORK_BYTES                                                                                      \
    const uint8_t *wiring, size_t wiring_length, const uint8_t *readings, size_t readings_length,                     \
        const uint8_t *term_index, size_t term_index_length, const uint8_t *term_coefficient,                         \
        size_t term_coefficient_length

/* ---- libcapi.a: the calls of the model, on bytes */

/* The phase shifters' withdrawal at each bus, n doubles. */
uint64_t capi_phase_withdrawal(CISTERNALOE_NETWORK_BYTES, uint8_t *sheet, size_t sheet_length);

/* Shunts, phase shifters and HVDC lines at each bus, n doubles. */
uint64_t capi_network_withdrawal(CISTERNALOE_NETWORK_BYTES, uint8_t *sheet, size_t sheet_length);

/* The same with demand, n doubles. */
uint64_t capi_current_fixed_withdrawal(CISTERNALOE_NETWORK_BYTES, uint8_t *sheet, size_t sheet_length);

/* The shedding bound at a bus, one double. A bus that isn't there is 5. */
uint64_t capi_shed_cap(CISTERNALOE_NETWORK_BYTES, size_t bus, uint8_t *sheet, size_t sheet_length);

/* A branch's flow offset at its status, one double. A branch that isn't there is 5. */
uint64_t capi_current_flow_offset(CISTERNALOE_NETWORK_BYTES, size_t branch, uint8_t *sheet, size_t sheet_length);

/* A generator's cost at a power, one double. `power` is a double's bits, finite and at most 10^12 (3). */
uint64_t capi_generator_cost(CISTERNALOE_NETWORK_BYTES, size_t generator, uint64_t power, uint8_t *sheet,
    size_t sheet_length);

/* A linear row's value, one double, of m flows `f` and k powers `pg`, each at most 10^15 (3). */
uint64_t capi_evaluate(CISTERNALOE_NETWORK_BYTES, size_t row, const uint8_t *f, size_t f_length, const uint8_t *pg,
    size_t pg_length, uint8_t *sheet, size_t sheet_length);

/* The susceptance matrix as triplets, by row and then by column, in three sheets. */
uint64_t capi_susceptance_coo(CISTERNALOE_NETWORK_BYTES, uint8_t *rows, size_t rows_length, uint8_t *cols,
    size_t cols_length, uint8_t *values, size_t values_length);

/* The network's number. */
uint64_t capi_network_number(CISTERNALOE_NETWORK_BYTES);

/* Which limits linear row `row` has: number + 256 times 0 none, 1 upper, 2 lower, 3 both, 4 equality. A row
 * that isn't there is 5. */
uint64_t capi_row_kind(CISTERNALOE_NETWORK_BYTES, size_t row);

/* ---- libcapi_terms.a: a linear row's value, on bytes, the terms as records */

/* `capi_evaluate` with the terms as one slice of records, twelve bytes each: the index, four bytes, and the coefficient,
 * eight. Bytes that are no whole number of records are number 1. */
uint64_t capi_evaluate_terms(const uint8_t *wiring, size_t wiring_length, const uint8_t *readings,
    size_t readings_length, const uint8_t *terms, size_t terms_length, size_t row, const uint8_t *f, size_t f_length,
    const uint8_t *pg, size_t pg_length, uint8_t *sheet, size_t sheet_length);

/* ---- libcapi_sens.a: the calls of the derivatives */

/* The KKT matrix at the snapped solution as triplets, at most 26m + 10n + 9k + 5S + 2R + 4T + 2q of them, in three
 * sheets. The solution's last q + 1 words are not looked at. */
uint64_t sens_kkt_triplets(CISTERNALOE_NETWORK, const double *solution, size_t solution_length, uint32_t *rows,
    size_t rows_length, uint32_t *cols, size_t cols_length, double *values, size_t values_length);

/* The same on bytes. */
uint64_t capi_kkt_triplets(CISTERNALOE_NETWORK_BYTES, const uint8_t *solution, size_t solution_length, uint8_t *rows,
    size_t rows_length, uint8_t *cols, size_t cols_length, uint8_t *values, size_t values_length);

/* The solution snapped to strict complementarity, as long as the solution sheet. */
uint64_t capi_snap(CISTERNALOE_NETWORK_BYTES, const uint8_t *solution, size_t solution_length, uint8_t *sheet,
    size_t sheet_length);

/* Upper, lower and equality multiplier of each linear row, 3q doubles. */
uint64_t capi_snap_linear(CISTERNALOE_NETWORK_BYTES, const uint8_t *solution, size_t solution_length, uint8_t *sheet,
    size_t sheet_length);

/* The flow-definition dual of each branch, m doubles. */
uint64_t capi_nu_flow_values(CISTERNALOE_NETWORK_BYTES, const uint8_t *solution, size_t solution_length,
    uint8_t *sheet, size_t sheet_length);

/* ---- libcapi_change.a: the calls of site changes */

/* `site_change`, below, on bytes. */
uint64_t capi_change(const uint8_t *wiring, size_t wiring_length, uint8_t *readings, size_t readings_length,
    const uint8_t *term_index, size_t term_index_length, const uint8_t *term_coefficient,
    size_t term_coefficient_length, const uint8_t *solution, size_t solution_length, uint8_t *rows,
    size_t rows_length, uint8_t *cols, size_t cols_length, uint8_t *values, size_t values_length, uint32_t head,
    uint32_t low, uint32_t high);

/* A site change: `head` has the kind, 1 to 9, in its top four bits and the index in its low 28, `low` and `high` are
 * the halves of the new double. On 0 the reading is set and the matrix's list for the network as it then stands fills the
 * sheets. A value that isn't finite or is past its limits is 3, another kind 4, an index that isn't there 5. */
uint64_t site_change(const uint32_t *wiring, size_t wiring_length, double *readings, size_t readings_length,
    const uint32_t *term_index, size_t term_index_length, const double *term_coefficient,
    size_t term_coefficient_length, const double *solution, size_t solution_length, uint32_t *rows,
    size_t rows_length, uint32_t *cols, size_t cols_length, double *values, size_t values_length, uint32_t head,
    uint32_t low, uint32_t high);

/* A list of changes, three words each, every one on what the last left; the number and count of each go to `numbers`
 * and `counted`. Words that are no whole number of changes are 1, a sheet without a word for each change is 7. The answer is
 * the number alone. */
uint32_t site_run_changes(const uint32_t *wiring, size_t wiring_length, double *readings, size_t readings_length,
    const uint32_t *term_index, size_t term_index_length, const double *term_coefficient,
    size_t term_coefficient_length, const double *solution, size_t solution_length, uint32_t *rows,
    size_t rows_length, uint32_t *cols, size_t cols_length, double *values, size_t values_length,
    const uint32_t *changes, size_t changes_length, uint32_t *numbers, size_t numbers_length, uint32_t *counted,
    size_t counted_length);

/* The same on bytes, twelve for a change and four for each number and count: one `capi_change` call after the other, each
 * on the bytes that the last one left. So a ragged slice of wiring, readings, terms or solution refuses each change by 1. */
uint32_t capi_run_changes(const uint8_t *wiring, size_t wiring_length, uint8_t *readings, size_t readings_length,
    const uint8_t *term_index, size_t term_index_length, const uint8_t *term_coefficient,
    size_t term_coefficient_length, const uint8_t *solution, size_t solution_length, uint8_t *rows,
    size_t rows_length, uint8_t *cols, size_t cols_length, uint8_t *values, size_t values_length,
    const uint8_t *changes, size_t changes_length, uint8_t *numbers, size_t numbers_length, uint8_t *counted,
    size_t counted_length);

/* ---- libcapi_problem.a: the calls of the program */

/* The program min 1/2 x'Px + q'x, Ax + s = b: P's and A's triplets, q, b, the cones' sizes. The answer is number +
 * 256 times A's count + 2^32 times P's. */
uint64_t problem_assemble_opf(CISTERNALOE_NETWORK, uint32_t *p_rows, size_t p_rows_length, uint32_t *p_cols,
    size_t p_cols_length, double *p_values, size_t p_values_length, uint32_t *a_rows, size_t a_rows_length,
    uint32_t *a_cols, size_t a_cols_length, double *a_values, size_t a_values_length, double *q, size_t q_length,
    double *b, size_t b_length, uint32_t *cones, size_t cones_length);

/* The same on bytes. */
uint64_t capi_assemble_opf(CISTERNALOE_NETWORK_BYTES, uint8_t *p_rows, size_t p_rows_length, uint8_t *p_cols,
    size_t p_cols_length, uint8_t *p_values, size_t p_values_length, uint8_t *a_rows, size_t a_rows_length,
    uint8_t *a_cols, size_t a_cols_length, uint8_t *a_values, size_t a_values_length, uint8_t *q, size_t q_length,
    uint8_t *b, size_t b_length, uint8_t *cones, size_t cones_length);

/* The marginal objective change for an added MW at each bus, n doubles. */
uint64_t capi_nodal_marginal_values(CISTERNALOE_NETWORK_BYTES, const uint8_t *solution, size_t solution_length,
    uint8_t *sheet, size_t sheet_length);

/* The solution sheet of a solver's vectors x and z, each word at most 10^12 (3), and its objective, a double's bits. */
uint64_t capi_read_dc_solution(CISTERNALOE_NETWORK_BYTES, const uint8_t *x, size_t x_length, const uint8_t *z,
    size_t z_length, uint64_t objective, uint8_t *sheet, size_t sheet_length);

/* ---- libcapi_parameters.a: the calls of parameter columns */

/* The KKT residual's partials in a parameter, a column of dim words for each listed element, column after column.
 * Parameters are numbered 0 to 18 in the order of sens/interface.rs; served are 0 active demand, 2 and 3 quadratic and linear
 * cost, 4 line limit, 6 series susceptance, 17 switching, 18 constraint limit, and another is 4 unless no column is listed. An
 * element that isn't there is 5, a cost of a generator with piecewise cost 6. */
uint32_t sens_parameter_jacobian(CISTERNALOE_NETWORK, const double *solution, size_t solution_length,
    uint32_t parameter, const uint32_t *columns, size_t columns_length, double *sheet, size_t sheet_length);

/* ---- libcapi_sensitivity.a: the calls of selectors, contraction and unit scale */

/* For each element of an operand the row of the system that it reads: one sign, an entry count for each element,
 * and the entries' rows and weights. Operands are numbered 0 to 12; served are 0 active price, 2 active dispatch, 4 active flow
 * at the from end, 9 angle, and another is 4. `count` is of entries. */
uint32_t sens_operand_selector(CISTERNALOE_NETWORK, uint32_t operand, double *sign, size_t sign_length,
    uint32_t *counts, size_t counts_length, uint32_t *rows, size_t rows_length, double *weights,
    size_t weights_length, size_t *count);

/* Before an outside solve: `count` is the number of words of its right side, dim times columns forward (mode 0), dim
 * times elements adjoint (mode 1), where the selection sheet is filled. Another mode is 4, counts that don't sum to the entries
 * are 1, a row not below dim is 5, a sign or weight past 10^12 is 3. */
uint32_t sens_contraction_first(CISTERNALOE_NETWORK, uint32_t mode, double sign, const uint32_t *counts,
    size_t counts_length, const uint32_t *rows, size_t rows_length, const double *weights, size_t weights_length,
    size_t columns, double *selection, size_t selection_length, size_t *count);

/* The right side to be solved: the front of `count` words of the parameter sheet forward, of the selection sheet
 * adjoint, copied to `sheet` where it has room; the answer is its length, 0 where that sheet is shorter or the mode is another. */
size_t sens_right_side(uint32_t mode, size_t count, const double *parameter, size_t parameter_length,
    const double *selection, size_t selection_length, double *sheet, size_t sheet_length);

/* After the solve: element by element, columns within. The parameter sheet's front is at most 10^60, the solved
 * columns, of exactly dim times columns (forward) or dim times elements (adjoint) words, at most 10^15 (3). */
uint32_t sens_contraction_third(CISTERNALOE_NETWORK, uint32_t mode, double sign, const uint32_t *counts,
    size_t counts_length, const uint32_t *rows, size_t rows_length, const double *weights, size_t weights_length,
    size_t columns, const double *parameter, size_t parameter_length, const double *solved, size_t solved_length,
    double *out, size_t out_length, size_t *count);

/* From per-unit to served units, one double. A base outside 0.001 to 1,000,000 is 3, an operand or parameter that is
 * none is 4. */
uint32_t sens_served_unit_scale(uint32_t operand, uint32_t parameter, double base, double *out, size_t out_length,
    size_t *count);

/* ---- libcapi_columns.a: a parameter's column and an operand's selector, on bytes */

/* One column of a parameter, dim doubles; the count is of columns: 1. Parameters are numbered, and refused, as for
 * sens_parameter_jacobian. */
uint64_t capi_parameter_jacobian(CISTERNALOE_NETWORK_BYTES, const uint8_t *solution, size_t solution_length,
    uint32_t parameter, uint32_t column, uint8_t *sheet, size_t sheet_length);

/* sens_operand_selector on bytes: one double, 32-bit words, 32-bit words, doubles. */
uint64_t capi_operand_selector(CISTERNALOE_NETWORK_BYTES, uint32_t operand, uint8_t *sign, size_t sign_length,
    uint8_t *counts, size_t counts_length, uint8_t *rows, size_t rows_length, uint8_t *weights,
    size_t weights_length);

/* ---- libcapi_contraction.a: the contraction for one element and one column a call, and the unit scale, on bytes.
 * Rows, weights and sheets that are lent in hold at most 6,544 words each, the greatest dim; longer ones are 1. */

/* Before an outside solve, for one element of `entries` entries and one column: the count is dim. When adjoint (mode 1)
 * dim doubles fill the front of the selection sheet; forward (mode 0) nothing is written. Refused as
 * sens_contraction_first. */
uint64_t capi_contraction_first(CISTERNALOE_NETWORK_BYTES, uint32_t mode, double sign, uint32_t entries,
    const uint8_t *rows, size_t rows_length, const uint8_t *weights, size_t weights_length, uint8_t *selection,
    size_t selection_length);

/* sens_right_side on bytes: the part's length in doubles, and its bytes where `sheet` has room. A slice that is ragged
 * or too long gives 0. A NaN comes back as 7ff8000000000000. */
size_t capi_right_side(uint32_t mode, size_t count, const uint8_t *parameter, size_t parameter_length,
    const uint8_t *selection, size_t selection_length, uint8_t *sheet, size_t sheet_length);

/* After the solve, one double. Refused as sens_contraction_third. */
uint64_t capi_contraction_third(CISTERNALOE_NETWORK_BYTES, uint32_t mode, double sign, uint32_t entries,
    const uint8_t *rows, size_t rows_length, const uint8_t *weights, size_t weights_length, const uint8_t *parameter,
    size_t parameter_length, const uint8_t *solved, size_t solved_length, uint8_t *sheet, size_t sheet_length);

/* sens_served_unit_scale on bytes, one double. */
uint64_t capi_served_unit_scale(uint32_t operand, uint32_t parameter, double base, uint8_t *sheet,
    size_t sheet_length);

#ifdef __cplusplus
}
#endif

#endif
