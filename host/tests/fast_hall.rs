//! The fast walk of a hall in Rust against the vectors of halls and the reference, so that the benchmark compares like with like.

mod common;
use common::inputs::{self, Size};
use common::{halls, rng::Rng, setting, vectors};
use juzvarola_checks::fast::{Hall, HallFound};
use juzvarola_checks::reference::{self, Reply};
use juzvarola_host::{Answer, PlannedHall};

/// For random halls: lines of a few openings.
const SMALL: Size = Size { horizon: 12, openings: 5, parts: 4 };

/// What the walk finds is what an answer with result 0, 6 or 7 says: the nodes, whether there are more, the floor, the cost, and each line's stops.
fn same(text: &[u8], walk: u64, reply: &Reply) {
    let hall = Hall::read(text);
    let answer = Answer { result: reply.result, text: 0, line: 0, length: reply.bytes.len(), fault_start: 0, fault: &[] };
    let wanted = PlannedHall::of(answer, &reply.bytes);
    let Some(HallFound { nodes, more, floor, best }) = hall.solve(walk) else {
        return assert_eq!(reply.result, 6);
    };
    let cost = best.as_ref().map(|best| best.cost as u32);
    let own = (more, Some(nodes as u32), Some(floor as u32), cost);
    assert_eq!(own, (reply.result == 7, wanted.nodes, wanted.floor, wanted.cost), "{}", String::from_utf8_lossy(text));
    for (line, stops) in best.iter().flat_map(|best| &best.stops).enumerate() {
        let steps = hall.jobs[line].steps.iter().enumerate().filter(|(k, _)| stops >> k & 1 == 1);
        let steps: Vec<i64> = steps.map(|(_, step)| i64::from(*step)).collect();
        let planned: Vec<i64> = wanted.plans[line].stops.iter().map(|stop| i64::from(stop.step)).collect();
        assert_eq!(steps, planned, "line {line} of\n{}", String::from_utf8_lossy(text));
    }
}

#[test]
fn fast_hall_gives_the_vectors() {
    common::with_stack(|| {
        let mut planned = 0;
        for vector in vectors::halls().iter().filter(|vector| matches!(vector.result, 0 | 6 | 7)) {
            same(&vector.call.job, vector.call.walk, &vector.reply());
            planned += 1;
        }
        println!("{planned} halls");
        vectors::enough(planned, "JUZVAROLA_HALL_VECTORS", 75);
    });
}

#[test]
fn fast_hall_is_the_references() {
    common::with_stack(|| {
        let mut rng = Rng::new(setting("JUZVAROLA_SEED", 73));
        let (mut planned, mut nodes) = (0, 0);
        for _ in 0..setting("JUZVAROLA_CASES", 3000) {
            let size = if rng.once_in(2) { SMALL } else { inputs::TINY };
            let text = halls::facts(&mut rng, size, 4).text();
            let walk = rng.pick(&[1, 2, 10, 100, 1000]);
            let reply = reference::hall(&text, walk, 16_384);
            if matches!(reply.result, 0 | 6 | 7) {
                same(&text, walk, &reply);
                planned += 1;
                nodes += Hall::read(&text).solve(walk).map_or(0, |found| found.nodes);
            }
        }
        println!("{planned} halls, {nodes} nodes");
        assert!(nodes > 10 * planned);
    });
}
