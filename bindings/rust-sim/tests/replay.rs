//! A seed alone determines a run, and a failure is found, shrunk and run again.
mod common;

use common::talked;
use lcmux_sim::{Explorer, Failure, Faults, Kind, Sim};
use std::collections::BTreeSet;
use std::env;
use std::process::Command;
use std::sync::atomic::{AtomicU64, Ordering};

fn explorer(faults: Faults) -> Explorer {
    Explorer::new(faults).ignore_environment()
}

#[test]
fn two_runs_of_a_seed_are_the_same_byte_for_byte() {
    let mut checksums = BTreeSet::new();
    for seed in 0..500 {
        let faults = Faults::all().within(2_000);
        let [one, other] = [(); 2].map(|()| talked(&mut Sim::new(seed, faults.clone())));
        assert_eq!(one.trace, other.trace, "seed {seed}");
        assert_eq!((one.a, one.b), (other.a, other.b));
        assert_eq!(one.trace.checksum(), other.trace.checksum());
        checksums.insert(one.trace.checksum());
    }
    assert!(checksums.len() > 480, "{} runs differ", checksums.len());
}

#[test]
fn a_checksum_is_one_of_the_bytes_too() {
    use tokio::io::{AsyncReadExt, AsyncWriteExt};
    let checksum = |byte| {
        let run = Sim::new(1, Faults::none()).run(
            |mut stream| async move { stream.write_all(&[byte]).await },
            |mut stream| async move { stream.read_u8().await },
        );
        assert_eq!(run.b.unwrap().unwrap(), byte);
        run.trace.checksum()
    };
    assert_eq!(checksum(7), checksum(7));
    assert_ne!(checksum(7), checksum(8));
}

#[test]
fn messages_arrive_or_the_session_fails_by_every_seed() {
    Explorer::new(Faults::all().within(2_000))
        .seeds(3_000)
        .check(|sim| {
            let run = talked(sim);
            if run.is_faultless() {
                assert!(
                    matches!((&run.a, &run.b), (Some(Ok(_)), Some(Ok(_)))),
                    "{:?} {:?}",
                    run.a,
                    run.b
                );
            }
        });
}

/// Fails if more than 3 files are longer than 5 bytes in sum, over a link that is cut.
fn fails(sim: &mut Sim) {
    let files = sim.draw("files", 1..=20);
    let length: u64 = (0..files).map(|_| sim.draw("length", 0..=1_000)).sum();
    let run = talked(sim);
    let mut faults = run.trace.faults();
    assert!(
        files < 4 || length <= 5 || !faults.any(|it| it.kind == Kind::Cut),
        "it is cut"
    );
}

fn found() -> Failure {
    let explorer = explorer(Faults::all().within(500));
    explorer.find(fails).expect("it fails by some seed")
}

#[test]
fn a_failure_is_shrunk_and_run_again() {
    let failure = found();
    let said = failure.to_string();
    assert!(failure.message.contains("it is cut"), "{said}");
    assert!(failure.message.contains("replay.rs:"), "{said}");
    assert!(failure.shrunk.contains("it is cut"), "{said}");
    let shrunk = said.split_once("shrunk to:").unwrap().1;
    assert!(shrunk.contains("files = 4\n"), "{said}");
    assert_eq!(shrunk.matches("length = 0\n").count(), 3, "{said}");
    assert!(shrunk.contains("length = 6\n"), "{said}");
    assert!(shrunk.contains("    a cut after byte 0 of A\n"), "{said}");
    assert!(
        said.contains(&format!("LCMUX_SIM_SEED={}:", failure.seed)),
        "{said}"
    );
    assert!(shrunk.contains("fault: a cut after byte 0 of A"), "{said}");

    let again = explorer(Faults::all().within(500))
        .seeds(1)
        .first_seed(failure.seed);
    assert_eq!(
        again.find(fails).map(|it| it.message),
        Some(failure.message.clone())
    );
    assert!(explorer(Faults::all().within(500))
        .seeds(failure.seed)
        .find(fails)
        .is_none());
}

#[test]
fn a_test_that_never_fails_has_no_report() {
    assert!(explorer(Faults::all())
        .seeds(20)
        .find(|sim| drop(talked(sim)))
        .is_none());
}

/// Run by the test below, in a process of its own.
#[test]
#[ignore]
fn child() {
    Explorer::new(Faults::all().within(500))
        .seeds(0)
        .check(fails);
}

fn run_child(variables: &[(&str, &str)]) -> (bool, String) {
    let mut command = Command::new(env::current_exe().unwrap());
    command.args(["child", "--exact", "--ignored", "--nocapture"]);
    for name in ["LCMUX_SIM_SEED", "LCMUX_SIM_SEEDS", "LCMUX_SIM_OUT"] {
        command.env_remove(name);
    }
    let output = command.envs(variables.iter().copied()).output().unwrap();
    (
        output.status.success(),
        String::from_utf8_lossy(&output.stderr).into_owned(),
    )
}

#[test]
fn the_environment_names_seeds_cases_and_a_folder() {
    let failure = found();
    let seed = failure.seed.to_string();
    assert!(run_child(&[]).0);
    assert!(run_child(&[("LCMUX_SIM_SEEDS", &seed)]).0);
    let (success, said) = run_child(&[("LCMUX_SIM_SEEDS", &(failure.seed + 1).to_string())]);
    assert!(!success && said.contains(&failure.case), "{said}");
    let (success, said) = run_child(&[("LCMUX_SIM_SEED", &seed)]);
    assert!(
        !success && said.contains(&failure.case) && said.contains("cargo test child"),
        "{said}"
    );

    let folder = env::temp_dir().join(format!("lcmux-sim-out-{}", std::process::id()));
    let out = folder.to_str().unwrap();
    let (success, said) = run_child(&[("LCMUX_SIM_SEED", &failure.case), ("LCMUX_SIM_OUT", out)]);
    assert!(!success && said.contains("it is cut"), "{said}");
    for name in ["run.script", "a.bytes", "b.bytes", "events.txt"] {
        assert!(folder.join("run-0").join(name).is_file(), "{name}");
    }
    let events = std::fs::read_to_string(folder.join("run-0/events.txt")).unwrap();
    assert!(
        events.contains("fault: a cut after byte 0 of A"),
        "{events}"
    );
    std::fs::remove_dir_all(folder).unwrap();
}

#[test]
fn a_test_that_its_seed_does_not_determine_is_named() {
    static RUNS: AtomicU64 = AtomicU64::new(0);
    let differs = |sim: &mut Sim| {
        lcmux_sim::note("outside of a run");
        let runs = RUNS.fetch_add(1, Ordering::Relaxed);
        sim.run(
            |_stream| async move { lcmux_sim::note(format!("run {runs}")) },
            |_stream| async {},
        );
    };
    let failure = explorer(Faults::none())
        .seeds(3)
        .twice()
        .find(differs)
        .unwrap();
    assert_eq!(
        (failure.seed, failure.message.as_str()),
        (0, "two runs of this seed differ")
    );
    assert!(explorer(Faults::none()).seeds(3).find(differs).is_none());

    RUNS.store(0, Ordering::Relaxed);
    let fails_once = |_: &mut Sim| assert_ne!(RUNS.fetch_add(1, Ordering::Relaxed), 2);
    let failure = explorer(Faults::none()).find(fails_once).unwrap();
    assert_eq!(failure.seed, 2);
    assert!(
        failure
            .to_string()
            .contains("something else than the seed decides"),
        "{failure}"
    );
}

#[test]
fn draws_are_within_their_ranges() {
    let mut seen = BTreeSet::new();
    for seed in 0..200 {
        let mut sim = Sim::new(seed, Faults::none());
        assert_eq!(sim.seed(), seed);
        seen.insert(sim.draw("one", 3..=6));
        assert_eq!(sim.draw("the same", 9..=9), 9);
        sim.draw("any", 0..=u64::MAX);
    }
    assert_eq!(seen, BTreeSet::from([3, 4, 5, 6]));
}
