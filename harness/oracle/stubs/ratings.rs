pub fn unlimited(_: f64) -> bool {
    unimplemented!()
}
