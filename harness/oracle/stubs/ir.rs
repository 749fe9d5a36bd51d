pub struct Balanced;

impl Balanced {
    pub fn into_value(self) -> powerio::BalancedNetwork {
        unimplemented!()
    }
}

pub fn balanced_module(_: powerio::Module) -> Result<Balanced, String> {
    unimplemented!()
}
