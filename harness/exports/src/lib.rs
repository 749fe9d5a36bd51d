//! The static libraries' exports as C programs call them, declared once, and the list of their names.
//!
//! Each declaration says what the export takes in the libraries' own terms: a slice is passed as a pointer
//! and a length in elements, and `bytes` or `words` is a network, four slices of bytes or of typed words.

macro_rules! exports {
    ($($(#[$doc:meta])* $name:ident ($($arguments:tt)*) -> $answer:ident;)*) => {
        /// Every export, library by library, in the order of the C header.
        pub const NAMES: &[&str] = &[$(stringify!($name)),*];
        $(declare! { [$(#[$doc])* $name] [] [$($arguments)*] -> $answer })*
    };
}

macro_rules! declare {
    ([$($head:tt)*] [$($done:tt)*] [bytes $(, $($rest:tt)*)?] -> $answer:ident) => {
        declare! {
            [$($head)*] [$($done)*]
            [
                wiring: &[u8], readings: &[u8], term_index: &[u8], term_coefficient: &[u8]
                $(, $($rest)*)?
            ]
            -> $answer
        }
    };
    ([$($head:tt)*] [$($done:tt)*] [words $(, $($rest:tt)*)?] -> $answer:ident) => {
        declare! {
            [$($head)*] [$($done)*]
            [
                wiring: &[u32], readings: &[f64], term_index: &[u32], term_coefficient: &[f64]
                $(, $($rest)*)?
            ]
            -> $answer
        }
    };
    ([$($head:tt)*] [$($done:tt)*] [$of:ident: &mut [$word:ty] $(, $($rest:tt)*)?] -> $answer:ident) => {
        declare! { [$($head)*] [$($done)* $of: *mut $word, _: usize,] [$($($rest)*)?] -> $answer }
    };
    ([$($head:tt)*] [$($done:tt)*] [$of:ident: &[$word:ty] $(, $($rest:tt)*)?] -> $answer:ident) => {
        declare! { [$($head)*] [$($done)* $of: *const $word, _: usize,] [$($($rest)*)?] -> $answer }
    };
    ([$($head:tt)*] [$($done:tt)*] [$of:ident: &mut $word:ident $(, $($rest:tt)*)?] -> $answer:ident) => {
        declare! { [$($head)*] [$($done)* $of: *mut $word,] [$($($rest)*)?] -> $answer }
    };
    ([$($head:tt)*] [$($done:tt)*] [$of:ident: $word:ident $(, $($rest:tt)*)?] -> $answer:ident) => {
        declare! { [$($head)*] [$($done)* $of: $word,] [$($($rest)*)?] -> $answer }
    };
    ([$(#[$doc:meta])* $name:ident] [$($done:tt)*] [] -> $answer:ident) => {
        extern "C" {
            $(#[$doc])*
            pub fn $name($($done)*) -> $answer;
        }
    };
}

exports! {
    // capi
    capi_phase_withdrawal(bytes, sheet: &mut [u8]) -> u64;
    capi_network_withdrawal(bytes, sheet: &mut [u8]) -> u64;
    capi_current_fixed_withdrawal(bytes, sheet: &mut [u8]) -> u64;
    capi_shed_cap(bytes, bus: usize, sheet: &mut [u8]) -> u64;
    capi_current_flow_offset(bytes, branch: usize, sheet: &mut [u8]) -> u64;
    capi_generator_cost(bytes, generator: usize, power: u64, sheet: &mut [u8]) -> u64;
    capi_evaluate(bytes, row: usize, f: &[u8], pg: &[u8], sheet: &mut [u8]) -> u64;
    capi_susceptance_coo(bytes, rows: &mut [u8], cols: &mut [u8], values: &mut [u8]) -> u64;
    capi_network_number(bytes) -> u64;
    capi_row_kind(bytes, row: usize) -> u64;

    // capi_terms
    capi_evaluate_terms(
        wiring: &[u8], readings: &[u8], terms: &[u8], row: usize, f: &[u8], pg: &[u8],
        sheet: &mut [u8]
    ) -> u64;

    // capi_sens
    sens_kkt_triplets(
        words, solution: &[f64], rows: &mut [u32], cols: &mut [u32], values: &mut [f64]
    ) -> u64;
    capi_kkt_triplets(
        bytes, solution: &[u8], rows: &mut [u8], cols: &mut [u8], values: &mut [u8]
    ) -> u64;
    capi_snap(bytes, solution: &[u8], sheet: &mut [u8]) -> u64;
    capi_snap_linear(bytes, solution: &[u8], sheet: &mut [u8]) -> u64;
    capi_nu_flow_values(bytes, solution: &[u8], sheet: &mut [u8]) -> u64;

    // capi_change
    capi_change(
        wiring: &[u8], readings: &mut [u8], term_index: &[u8], term_coefficient: &[u8],
        solution: &[u8], rows: &mut [u8], cols: &mut [u8], values: &mut [u8],
        head: u32, low: u32, high: u32
    ) -> u64;
    site_change(
        wiring: &[u32], readings: &mut [f64], term_index: &[u32], term_coefficient: &[f64],
        solution: &[f64], rows: &mut [u32], cols: &mut [u32], values: &mut [f64],
        head: u32, low: u32, high: u32
    ) -> u64;
    site_run_changes(
        wiring: &[u32], readings: &mut [f64], term_index: &[u32], term_coefficient: &[f64],
        solution: &[f64], rows: &mut [u32], cols: &mut [u32], values: &mut [f64],
        changes: &[u32], numbers: &mut [u32], counted: &mut [u32]
    ) -> u32;

    capi_run_changes(
        wiring: &[u8], readings: &mut [u8], term_index: &[u8], term_coefficient: &[u8],
        solution: &[u8], rows: &mut [u8], cols: &mut [u8], values: &mut [u8],
        changes: &[u8], numbers: &mut [u8], counted: &mut [u8]
    ) -> u32;

    // capi_problem
    problem_assemble_opf(
        words, p_rows: &mut [u32], p_cols: &mut [u32], p_values: &mut [f64],
        a_rows: &mut [u32], a_cols: &mut [u32], a_values: &mut [f64],
        q: &mut [f64], b: &mut [f64], cones: &mut [u32]
    ) -> u64;
    capi_assemble_opf(
        bytes, p_rows: &mut [u8], p_cols: &mut [u8], p_values: &mut [u8],
        a_rows: &mut [u8], a_cols: &mut [u8], a_values: &mut [u8],
        q: &mut [u8], b: &mut [u8], cones: &mut [u8]
    ) -> u64;
    capi_nodal_marginal_values(bytes, solution: &[u8], sheet: &mut [u8]) -> u64;
    capi_read_dc_solution(bytes, x: &[u8], z: &[u8], objective: u64, sheet: &mut [u8]) -> u64;

    // capi_parameters
    sens_parameter_jacobian(
        words, solution: &[f64], parameter: u32, columns: &[u32], sheet: &mut [f64]
    ) -> u32;

    // capi_sensitivity
    sens_operand_selector(
        words, operand: u32, sign: &mut [f64], counts: &mut [u32], rows: &mut [u32],
        weights: &mut [f64], count: &mut usize
    ) -> u32;
    sens_contraction_first(
        words, mode: u32, sign: f64, counts: &[u32], rows: &[u32], weights: &[f64],
        columns: usize, selection: &mut [f64], count: &mut usize
    ) -> u32;
    sens_right_side(
        mode: u32, count: usize, parameter: &[f64], selection: &[f64], sheet: &mut [f64]
    ) -> usize;
    sens_contraction_third(
        words, mode: u32, sign: f64, counts: &[u32], rows: &[u32], weights: &[f64],
        columns: usize, parameter: &[f64], solved: &[f64], out: &mut [f64], count: &mut usize
    ) -> u32;
    sens_served_unit_scale(
        operand: u32, parameter: u32, base: f64, out: &mut [f64], count: &mut usize
    ) -> u32;

    // capi_columns
    capi_parameter_jacobian(
        bytes, solution: &[u8], parameter: u32, column: u32, sheet: &mut [u8]
    ) -> u64;
    capi_operand_selector(
        bytes, operand: u32, sign: &mut [u8], counts: &mut [u8], rows: &mut [u8],
        weights: &mut [u8]
    ) -> u64;

    // capi_contraction
    capi_contraction_first(
        bytes, mode: u32, sign: f64, entries: u32, rows: &[u8], weights: &[u8],
        selection: &mut [u8]
    ) -> u64;
    capi_right_side(
        mode: u32, count: usize, parameter: &[u8], selection: &[u8], sheet: &mut [u8]
    ) -> usize;
    capi_contraction_third(
        bytes, mode: u32, sign: f64, entries: u32, rows: &[u8], weights: &[u8],
        parameter: &[u8], solved: &[u8], out: &mut [u8]
    ) -> u64;
    capi_served_unit_scale(operand: u32, parameter: u32, base: f64, out: &mut [u8]) -> u64;
}
