pub(crate) struct AcPfLayout;
pub(crate) struct AcPfSolution;
pub(crate) struct AcStart;
pub(crate) fn ac_injections() {}
pub(crate) fn ac_jacobian() {}
pub(crate) fn load_jacobian() {}
pub(crate) fn ac_pf_with_start() {}
