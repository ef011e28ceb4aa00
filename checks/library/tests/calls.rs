//! The linked library against the model over a few seeds; all that is counted must have happened.

use library::{run, Happenings, Linked, StandIn};

const SEEDS: [u64; 5] = [1, 2, 3, 4, 5];
const CALLS: u64 = 10_000;

#[test]
fn every_call_is_answered_as_by_the_model() {
    let mut happenings = Happenings::default();
    for seed in SEEDS {
        match run(&mut Linked, seed, CALLS) {
            Ok(happened) => happenings.absorb(&happened),
            Err(difference) => panic!("seed {seed}: {difference}"),
        }
    }
    assert_eq!(happenings.missing(), [""; 0]);
}

#[test]
fn a_seed_names_a_run() {
    let report = |seed| run(&mut StandIn, seed, 3_000).expect("no difference").report();
    assert_eq!(report(6), report(6));
    assert_ne!(report(6), report(7));
}

#[test]
fn no_calls_are_no_difference() {
    let happened = run(&mut Linked, 1, 0).expect("nothing was compared");
    assert_eq!(happened.missing().len(), Happenings::default().missing().len());
}
