#[test]
fn start_up_tests_hold() {
    oracle::self_test().unwrap();
}
