//! The library against the reference on damaged inputs alone: accepted job texts, plan texts, work logs, halls and order forms, damaged, each handed to
//! every call that takes it, with canaries around every lent buffer. JUZVAROLA_CASES and JUZVAROLA_SEED give other numbers of inputs and other inputs.
#![cfg(feature = "library")]

mod common;
use common::halls::{self, HallFacts};
use common::inputs::{self, Facts, Size};
use common::{damage, forms, lent, logs, rng::Rng, setting, Call};
use juzvarola_checks::reference::{self, texts::read_job};
use juzvarola_host::MOST_WALK;

const CASES: u64 = 60_000;

/// Each result number of each call occurs at least this often in the full run.
const LEAST: u64 = 20;

/// Damaged inputs that come from one accepted job.
const EACH: u64 = 12;

/// Points of a count's walk, and of the counted walk beside the optimum's, at most.
const MOST: u64 = 200;

/// The jobs that most inputs come from; now and then they are larger, up to the largest.
const SMALL: Size = Size { horizon: 20, openings: 6, parts: 4 };

/// The calls, in the order of `Tally`.
#[derive(Debug, Clone, Copy, PartialEq)]
enum Of {
    Planner,
    Optimum,
    Count,
    Judge,
    Latest,
    Carry,
    Hall,
    Writer,
}

/// Each call with the result numbers that it can give.
const CALLS: [(Of, &[usize]); 8] = [
    (Of::Planner, &[0, 1, 2, 3, 4, 5, 6, 7, 8, 12, 13]),
    (Of::Optimum, &[0, 1, 2, 3, 4, 5, 6, 7, 8, 12, 13]),
    (Of::Count, &[0, 1, 2, 3, 4, 5, 12, 13]),
    (Of::Judge, &[0, 1, 2, 3, 4, 5, 8, 9, 10, 11, 12, 13]),
    (Of::Latest, &[0, 1, 2, 3, 4, 5, 6, 8, 9, 12, 13]),
    (Of::Carry, &[0, 1, 2, 3, 4, 5, 8, 9, 10, 11, 12, 13]),
    (Of::Hall, &[0, 1, 2, 3, 4, 5, 6, 7, 8, 12, 13, 14]),
    (Of::Writer, &[0, 3, 4, 5, 8, 12, 13]),
];

/// How often each call gave each result number, and how many pairs of logs were accepted.
#[derive(Default)]
struct Tally {
    results: [[u64; 15]; 8],
    pairs: u64,
}

impl Tally {
    fn add(&mut self, of: Of, result: u32) {
        self.results[of as usize][result as usize] += 1;
    }

    /// That each call gave each of its numbers often enough, and no other.
    fn is_full(&self) -> bool {
        let asked = |number: &usize| (inputs::holders_on() || *number != 12) && (inputs::bands_on() || *number != 13);
        let full = |(row, (_, own)): (&[u64; 15], &(Of, &[usize]))| {
            (0..15).all(|number| if own.contains(&number) { !asked(&number) || row[number] >= LEAST } else { row[number] == 0 })
        };
        self.pairs >= LEAST && self.results.iter().zip(&CALLS).all(full)
    }

    fn print(&self, inputs: u64) {
        let calls: u64 = self.results.iter().flatten().sum();
        println!(
            "{inputs} damaged inputs and {calls} calls, 0 differ; {} pairs of logs; how often each result came up, from 0 on:",
            self.pairs
        );
        CALLS.iter().zip(self.results).for_each(|((of, _), row)| println!("{:8}{row:?}", format!("{of:?}")));
    }
}

/// Texts without faults, which are damaged: a job with a small walk number, a plan and a log of it, and a hall.
struct Sound {
    facts: Facts,
    job: Vec<u8>,
    plan: Vec<u8>,
    log: Vec<u8>,
    hall: HallFacts,
}

/// A size: small, now and then up to the largest.
fn any_size(rng: &mut Rng) -> Size {
    match rng.below(60) {
        0 => inputs::LARGE,
        1..=5 => inputs::MIDDLE,
        _ => SMALL,
    }
}

impl Sound {
    fn new(rng: &mut Rng, size: Size) -> Sound {
        let mut facts = inputs::facts(rng, size);
        facts.walk = rng.pick(&[0, 1, 2, 10, 40, 100]);
        let (plan, log) = (inputs::plan(rng, &facts), logs::log(rng, &facts));
        let size = if rng.once_in(10) { inputs::SMALL } else { inputs::TINY };
        Sound { job: facts.text(), facts, plan, log, hall: halls::facts(rng, size, 3) }
    }
}

/// What is the matter with a call of the optimum, or its number. Where its walks have no limit it can't be cut short.
fn optimum(rng: &mut Rng, call: Call) -> Result<u32, String> {
    let is_small = call.job.len() < 1000;
    let walk = if is_small { rng.pick(&[0, 1, 10, 100, 1000, MOST_WALK, u64::MAX]) } else { call.walk };
    let call = Call { walk, ..call };
    match lent::compare_optimum(rng, &call, MOST)? {
        7 if walk >= MOST_WALK => Err(format!("7 without a limit\n{call:?}")),
        result => Ok(result),
    }
}

/// A call on these texts by the library and by the reference.
fn check(rng: &mut Rng, tally: &mut Tally, of: Of, texts: [&[u8]; 2], walk: u64) -> Result<(), String> {
    if !inputs::holders_on() && texts[0].windows(8).any(|window| window == b"removal=") {
        return Ok(());
    }
    let [first, second] = texts;
    let output = damage::room(rng, if of == Of::Carry { 40_960 } else { 16_384 });
    let is_second = matches!(of, Of::Judge | Of::Latest | Of::Carry);
    let call = Call { job: first.to_vec(), plan: is_second.then(|| second.to_vec()), walk, output };
    if !inputs::holders_on() && call.is_costly() {
        return Ok(());
    }
    let reply = match of {
        Of::Planner => reference::plan(first, walk, output),
        Of::Judge => reference::judge(first, second, output),
        Of::Latest => reference::latest(first, second, output),
        Of::Carry => reference::carry(first, second, output),
        Of::Hall => reference::hall(first, walk, output),
        Of::Optimum | Of::Count | Of::Writer => reference::Reply::default(),
    };
    let result = match of {
        Of::Planner | Of::Judge => lent::compare(rng, &call, &reply).map(|()| reply.result),
        Of::Latest => lent::compare_latest(rng, &call, &reply).map(|()| reply.result),
        Of::Carry => lent::compare_carry(rng, &call, &reply).map(|()| reply.result),
        Of::Hall => lent::compare_hall(rng, &call, &reply).map(|()| reply.result),
        Of::Optimum => optimum(rng, call),
        Of::Count => lent::compare_count(rng, first, MOST),
        Of::Writer => unreachable!("the writer takes no text"),
    };
    tally.add(of, result.map_err(|difference| format!("{of:?}: {difference}"))?);
    Ok(())
}

/// A form, to the writer.
fn check_form(rng: &mut Rng, tally: &mut Tally, facts: &Facts) -> Result<(), String> {
    let room = damage::room(rng, 40_960);
    let form = forms::damaged(rng, facts, room);
    let form = if inputs::holders_on() { form } else { form.without_covers() };
    let reply = form.expected();
    tally.add(Of::Writer, reply.result);
    lent::compare_form(rng, &form, &reply)
}

/// A job text and what goes with it, to every call that takes a job.
fn check_job(rng: &mut Rng, tally: &mut Tally, job: &[u8], sound: &Sound) -> Result<(), String> {
    for of in [Of::Planner, Of::Optimum, Of::Count] {
        check(rng, tally, of, [job, b""], sound.facts.walk)?;
    }
    check_second(rng, tally, [job, &sound.plan])?;
    check(rng, tally, Of::Carry, [job, &sound.log], 0)
}

/// A job text and a plan text, to the calls that take both.
fn check_second(rng: &mut Rng, tally: &mut Tally, texts: [&[u8]; 2]) -> Result<(), String> {
    check(rng, tally, Of::Judge, texts, 0)?;
    check(rng, tally, Of::Latest, texts, 0)
}

/// A log, and where it is accepted a second one of the job that is left, damaged half of the time: if both are accepted, so is the joined one, and it gives
/// the same text.
fn check_logs(rng: &mut Rng, tally: &mut Tally, job: &[u8], log: &[u8]) -> Result<(), String> {
    check(rng, tally, Of::Carry, [job, log], 0)?;
    let Some(between) = lent::carried(job, log) else { return Ok(()) };
    let left = read_job(&between).map_err(|fault| format!("{fault:?} of a text that was written"))?;
    let Some(own) = logs::random(rng, &left) else { return Ok(()) };
    let second = if rng.once_in(2) { damage::plan(rng, &own) } else { own };
    check(rng, tally, Of::Carry, [&between, &second], 0)?;
    let Some(last) = lent::carried(&between, &second) else { return Ok(()) };
    let [first, second] = [log, &second].map(String::from_utf8_lossy);
    let joined = logs::joined(&first, &second).into_bytes();
    check(rng, tally, Of::Carry, [job, &joined], 0)?;
    tally.pairs += 1;
    match lent::carried(job, &joined) == Some(last) {
        true => Ok(()),
        false => Err(format!("the joined log of\n{first}{second}gives another text than both")),
    }
}

/// One damaged input: a job text, a plan text, both, a log, a hall, texts spliced or in each other's place, or a form.
fn check_damaged(rng: &mut Rng, tally: &mut Tally, sound: &Sound, other: &Sound) -> Result<(), String> {
    let walk = sound.facts.walk;
    match rng.below(16) {
        0..=3 => {
            let job = damage::job(rng, &sound.facts);
            check_job(rng, tally, &job, sound)
        }
        4..=6 => {
            let plan = damage::plan(rng, &sound.plan);
            check_second(rng, tally, [&sound.job, &plan])
        }
        7 => {
            let (job, plan) = (damage::job(rng, &sound.facts), damage::plan(rng, &sound.plan));
            check_second(rng, tally, [&job, &plan])
        }
        8 | 9 => {
            let log = if rng.once_in(3) { sound.log.clone() } else { damage::plan(rng, &sound.log) };
            check_logs(rng, tally, &sound.job, &log)
        }
        10 | 11 => {
            let hall = damage::hall(rng, &sound.hall);
            let walk = rng.pick(&[0, 1, 2, 10, 100, 300]);
            check(rng, tally, Of::Hall, [&hall, b""], walk)
        }
        12 => {
            let job = damage::spliced(rng, &sound.job, &other.job);
            check_job(rng, tally, &job, sound)
        }
        13 => check_spliced(rng, tally, sound, other, walk),
        _ => check_form(rng, tally, &sound.facts),
    }
}

/// Texts of two kinds or of two jobs spliced, or one in the other's place.
fn check_spliced(rng: &mut Rng, tally: &mut Tally, sound: &Sound, other: &Sound, walk: u64) -> Result<(), String> {
    let all = [&sound.job, &sound.plan, &sound.log, &other.plan, &other.log, &other.job];
    let (one, two) = (rng.pick(&all), rng.pick(&all));
    let text = if rng.once_in(6) { one.clone() } else { damage::spliced(rng, one, two) };
    check_second(rng, tally, [&sound.job, &text])?;
    check(rng, tally, Of::Carry, [&sound.job, &text], 0)?;
    let hall = damage::spliced(rng, &sound.hall.text(), &other.hall.text());
    check(rng, tally, Of::Hall, [&hall, b""], walk)
}

#[test]
fn library_is_the_reference_on_damaged_inputs() {
    common::with_stack(|| {
        let mut rng = Rng::new(setting("JUZVAROLA_SEED", 14));
        let cases = setting("JUZVAROLA_CASES", CASES);
        let mut tally = Tally::default();
        let mut before = Sound::new(&mut rng, SMALL);
        for number in 0..cases.div_ceil(EACH) {
            let size = any_size(&mut rng);
            let sound = Sound::new(&mut rng, size);
            for damaged in 0..EACH {
                if let Err(difference) = check_damaged(&mut rng, &mut tally, &sound, &before) {
                    panic!("input {}: {difference}", number * EACH + damaged);
                }
            }
            before = sound;
        }
        tally.print(cases.div_ceil(EACH) * EACH);
        assert!(cases < CASES || tally.is_full());
    });
}

/// Bytes in the place of each byte of a text: digits, what parts lines, and what is neither.
const BYTES: &[u8] = b"019=\n\0\r a\xff";

/// Each beginning of this text, each byte of it replaced, left out and doubled, to a call.
fn check_each_byte(rng: &mut Rng, tally: &mut Tally, of: Of, text: &[u8], beside: Option<&[u8]>, walk: u64) -> Result<u64, String> {
    let mut texts: Vec<Vec<u8>> = (0..text.len()).map(|at| text[..at].to_vec()).collect();
    for at in 0..text.len() {
        let with = |bytes: &[u8]| [&text[..at], bytes, &text[at + 1..]].concat();
        texts.extend(BYTES.iter().map(|byte| with(&[*byte])));
        texts.extend([with(b""), with(&[text[at]; 2])]);
    }
    for own in &texts {
        let both = beside.map_or([own, &b""[..]], |job| [job, own]);
        check(rng, tally, of, both, walk)?;
    }
    Ok(texts.len() as u64)
}

#[test]
fn each_byte_of_accepted_texts() {
    common::with_stack(|| {
        let mut rng = Rng::new(setting("JUZVAROLA_SEED", 15));
        let (mut tally, mut texts) = (Tally::default(), 0);
        for _ in 0..setting("JUZVAROLA_CASES", CASES).min(CASES).div_ceil(10_000) {
            let sound = Sound::new(&mut rng, SMALL);
            let hall = sound.hall.text();
            let (job, plan, log) = (sound.job.as_slice(), sound.plan.as_slice(), sound.log.as_slice());
            let calls = [
                (Of::Planner, job, None),
                (Of::Optimum, job, None),
                (Of::Count, job, None),
                (Of::Judge, plan, Some(job)),
                (Of::Latest, plan, Some(job)),
                (Of::Carry, log, Some(job)),
                (Of::Hall, &hall, None),
            ];
            for (of, text, beside) in calls {
                texts += check_each_byte(&mut rng, &mut tally, of, text, beside, 20).unwrap_or_else(|difference| panic!("{difference}"));
            }
        }
        tally.print(texts);
        assert!(tally.results[..7].iter().all(|row| row[2] > 0 && row[3] > 0));
    });
}
