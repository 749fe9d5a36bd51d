pub trait Formulation {}

pub struct Dc;

impl Dc {
    pub fn new() -> Self {
        Dc
    }
}

impl Formulation for Dc {}
