//! Records of the served answer, named by the model and the readout.

#[derive(Clone)]
pub struct SolveDiagnostic {
    pub code: String,
    pub message: String,
    pub buses: Vec<usize>,
}

#[derive(Clone)]
pub struct LimitRound;
