//! The types of powerio, powerio_matrix, powerio_prob and powerio_tx that the
//! original names while it builds a network from a case file. Nothing here is
//! called: the networks compared are given as numbers.

#[derive(Clone, Copy, Debug, PartialEq, Eq, Hash)]
pub struct BusId(pub usize);

#[derive(Clone, Copy, Debug, PartialEq, Eq)]
#[non_exhaustive]
pub enum BusType {
    Isolated,
}

macro_rules! records {
    ($($name:ident { $($field:ident: $kind:ty),* $(,)? })*) => {
        $(#[derive(Clone)] pub struct $name { $(pub $field: $kind),* })*
    };
}

records! {
    Bus { id: BusId, uid: Option<String>, kind: BusType }
    Branch { uid: Option<String>, angmin: f64, angmax: f64, rate_a: f64 }
    Generator { uid: Option<String> }
    Service { in_service: bool }
    Switch { closed: bool }
    Compensator { in_service: bool, bus: BusId }
    Hvdc {
        in_service: bool, from: BusId, to: BusId,
        converter1: Option<Converter>, converter2: Option<Converter>,
    }
    Converter { component: String, dc_terminal1: Terminal, dc_terminal2: Terminal }
    Terminal { connected: Option<bool> }
    Detailed {
        voltage_source_converters: Vec<Converter>, line_commutated_converters: Vec<Converter>,
    }
    Winding { rate_a: f64 }
    Transformer { in_service: bool, windings: Vec<Winding> }
    HvdcInjections { inactive_terminal: Vec<usize> }
    SourceRows {
        buses: Vec<Option<usize>>, branches: Vec<Option<usize>>,
        generators: Vec<Option<usize>>, transformers_3w: Vec<Option<usize>>,
    }
    Normalized { network: BalancedNetwork }
    BalancedNetwork {}
    DcOpfInstance {}
    Source {}
    Module {}
    Diagnostic {}
    PiecewiseLinearCost { power: Vec<f64>, value: Vec<f64> }
    PreparedBranches {
        analysis_sources: Vec<AnalysisBranchSource>, analysis_rows: Vec<usize>,
        identities: Vec<String>, from_bus: Vec<usize>, to_bus: Vec<usize>,
        susceptance_magnitude: Vec<f64>, shift: Vec<f64>, angle_min: Vec<f64>,
        angle_max: Vec<f64>, f_max: Vec<f64>, thermal_limit_active: Vec<bool>,
        angle_bound_active: Vec<bool>,
    }
    PreparedGenerators {
        analysis_rows: Vec<usize>, source_rows: Vec<Option<usize>>, bus_of_gen: Vec<usize>,
        q: Vec<f64>, c: Vec<f64>, c0: Vec<f64>,
        piecewise_linear: Vec<Option<PiecewiseLinearCost>>,
        pmax: Vec<f64>, pmin: Vec<f64>, capability_active: Vec<bool>,
    }
    Preparation {
        n_buses: usize, n_source_branches: usize, n_source_generators: usize,
        bus_ids: Vec<BusId>, bus_source_rows: Vec<Option<usize>>, bus_analysis_rows: Vec<usize>,
        reference_buses: Vec<usize>, p_d: Vec<f64>, g_s: Vec<f64>, p_hvdc: Vec<f64>,
        base_mva: f64, objective: PreparedObjective, branches: PreparedBranches,
        generators: PreparedGenerators,
    }
    Code { code: String }
}

macro_rules! uncalled {
    ($($owner:ident { $(fn $name:ident($($argument:tt)*) -> $answer:ty;)* })*) => {
        $(impl $owner {
            $(pub fn $name($($argument)*) -> $answer { unimplemented!() })*
        })*
    };
}

uncalled! {
    BalancedNetwork {
        fn validate(&self) -> Result<(), String>;
        fn is_normalized(&self) -> bool;
        fn check_base_mva(&self) -> Result<(), String>;
        fn buses(&self) -> &[Bus];
        fn branches(&self) -> &[Branch];
        fn branches_mut(&mut self) -> &mut [Branch];
        fn generators(&self) -> &[Generator];
        fn loads(&self) -> &[Service];
        fn shunts(&self) -> &[Service];
        fn storage(&self) -> &[Service];
        fn switches(&self) -> &[Switch];
        fn static_var_compensators(&self) -> &[Compensator];
        fn hvdc(&self) -> &[Hvdc];
        fn transformers_3w(&self) -> &[Transformer];
        fn detailed_connectivity(&self) -> Option<&Detailed>;
        fn calc_hvdc_injections(&self) -> HvdcInjections;
        fn to_normalized_with_source_rows(&self, _: &NormalizeOptions)
            -> Result<(Normalized, SourceRows), String>;
    }
    HvdcInjections {
        fn to_diagnostics(&self, _: HvdcTreatment) -> Vec<Diagnostic>;
    }
    Diagnostic {
        fn code(&self) -> &str;
        fn message(&self) -> &str;
    }
    Source {
        fn from_memory(_: &str, _: Vec<u8>) -> Result<Source, String>;
    }
    DcOpfInstance {
        fn network(&self) -> &BalancedNetwork;
        fn from_network(_: BalancedNetwork) -> Result<Self, String>;
        fn with_network(self, _: BalancedNetwork) -> Result<Self, String>;
        fn with_branch_susceptance_formula(self, _: BranchSusceptanceFormula) -> Self;
    }
    Preparation {
        fn n_branches(&self) -> usize;
        fn n_generators(&self) -> usize;
        fn calc_branch_flow_offset(&self) -> Vec<f64>;
    }
    PreparationError {
        fn code(&self) -> Code;
    }
}

pub struct PreparationError;

impl std::fmt::Display for PreparationError {
    fn fmt(&self, f: &mut std::fmt::Formatter<'_>) -> std::fmt::Result {
        f.write_str("preparation")
    }
}

pub struct IndexedNetwork<'a>(&'a BalancedNetwork);

impl<'a> IndexedNetwork<'a> {
    pub fn new(network: &'a BalancedNetwork) -> Self {
        IndexedNetwork(network)
    }
    pub fn n(&self) -> usize {
        self.0.buses().len()
    }
    pub fn branches(&self) -> &[Branch] {
        self.0.branches()
    }
}

#[derive(Clone, Copy)]
pub enum BranchSusceptanceFormula {
    SeriesSusceptance,
}

#[derive(Clone, Copy)]
pub enum HvdcTreatment {
    FixedInjection,
}

#[derive(Clone, Copy)]
pub enum Units {
    PerUnit,
}

#[derive(Clone, Copy, Debug, PartialEq, Eq)]
#[non_exhaustive]
pub enum AnalysisBranchSource {
    Branch {
        row: usize,
    },
    ThreeWindingTransformerWinding {
        transformer_row: usize,
        winding: usize,
    },
}

#[derive(Clone, Copy, Debug, PartialEq, Eq)]
#[non_exhaustive]
pub enum PreparedObjective {
    Feasibility,
    NetworkGeneratorCost,
    /// Any objective beside those two.
    Other,
}

#[derive(Default)]
pub struct NormalizeOptions;

pub struct DcOpfAssemblyOptions {
    pub units: Units,
    pub skip_zero_impedance: bool,
    pub synthesize_unrated_limits: bool,
    pub hvdc_treatment: HvdcTreatment,
}

impl Default for DcOpfAssemblyOptions {
    fn default() -> Self {
        unimplemented!()
    }
}

pub fn parse(_: Source) -> Result<Module, String> {
    unimplemented!()
}

pub fn build_dc_opf_preparation(
    _: &DcOpfInstance,
    _: &DcOpfAssemblyOptions,
) -> Result<Preparation, PreparationError> {
    unimplemented!()
}
