//! E4 against the walk before it: "On every job the new walk has no more points than the old one and, if both finish, the plan is the
//! same." The old estimate stands in the reference for this alone.

mod common;
use common::{inputs, rng::Rng, setting};
use juzvarola_checks::reference::{model::Job, texts};

/// Points of a walk, at most.
const LIMIT: u64 = 500;

#[test]
fn no_more_points_and_the_same_plan() {
    let mut rng = Rng::new(setting("JUZVAROLA_SEED", 10));
    let (mut fewer, mut higher, mut cut) = (0, 0, 0);
    let cases = setting("JUZVAROLA_CASES", 20_000);
    for _ in 0..cases {
        let facts = inputs::job(&mut rng);
        let job = texts::read_job(&facts.text()).expect("a job without faults");
        let old_floor = job.old_estimate(&[]);
        assert_eq!(job.floor().is_none(), old_floor.is_none(), "{job:?}");
        assert!(job.floor() >= old_floor, "{job:?}");
        for limit in [facts.walk, LIMIT] {
            let (new, old) = (job.walk(limit), job.walk_by(limit, Job::old_estimate));
            assert!(new.nodes <= old.nodes && (old.more || !new.more), "{job:?}");
            if !old.more {
                assert_eq!(new.best, old.best, "{job:?}");
            }
            fewer += u64::from(new.nodes < old.nodes);
            cut += u64::from(old.more);
        }
        higher += u64::from(job.floor() > old_floor);
    }
    println!("{cases} jobs: {higher} floors are higher, {fewer} of {} walks have fewer points, {cut} did not finish before", 2 * cases);
}
