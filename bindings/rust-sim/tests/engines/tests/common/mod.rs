use lcmux_sim::{Explorer, Failure, Sim};

/// The report of a bug that is found, and found again by its seed.
pub fn found(explorer: Explorer, name: &str, test: impl Fn(&mut Sim)) -> Failure {
    let explorer = explorer.ignore_environment();
    let failure = explorer
        .find(&test)
        .unwrap_or_else(|| panic!("{name} is not found"));
    println!("{name}: found by seed {}\n{failure}\n", failure.seed);
    let again = explorer.seeds(1).first_seed(failure.seed).find(&test);
    assert_eq!(again.map(|it| it.message), Some(failure.message.clone()));
    failure
}
