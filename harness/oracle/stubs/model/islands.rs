use crate::api::SolveDiagnostic;
use powerio::BalancedNetwork;

pub(crate) enum ReferencePolicy {
    GeneratorHosted,
    Stated,
}

pub(crate) struct Energized {
    pub(crate) diagnostics: Vec<SolveDiagnostic>,
}

impl Energized {
    pub(crate) fn network<'a>(&'a self, _: &'a BalancedNetwork) -> &'a BalancedNetwork {
        unimplemented!()
    }

    pub(crate) fn into_network(self) -> Option<BalancedNetwork> {
        unimplemented!()
    }
}

pub(crate) fn energize(_: &BalancedNetwork, _: ReferencePolicy) -> Energized {
    unimplemented!()
}
