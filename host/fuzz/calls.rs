//! What AFL++ runs (`fuzz.sh`): an input's first byte chooses a call of the library, its second the walk number and the output's length; the rest are the
//! texts, with a byte 31 between two of them, or an order form's lists, a line each. The call is made with every buffer between pages that can't be touched,
//! and all that it hands over is compared with the reference: a difference ends the process. With a file it makes that file's call, and says which it was.

mod room;

use juzvarola_checks::compared::{form, LISTS};
use juzvarola_checks::reference::{self, Reply};
use juzvarola_host::Answer;
use room::{List, Room};

/// Between the job and the plan or log.
const BETWEEN: u8 = 31;

/// Walk numbers that the reference walks in a short time.
const WALKS: [u64; 8] = [60, 0, 1, 2, 5, 10, 30, 120];

/// The outputs' lengths: as they should be, more, and too short.
const ROOMS: [usize; 8] = [16_384, 40_960, 16_385, 16_383, 40_959, 40_961, 0, 1];

/// The most bytes of an input: more than the longest text.
const MOST: usize = 70_000;

/// Nodes of a count's walk, and of the counted walk beside the optimum's.
const NODES: u64 = 150;

/// Where the texts and the output are.
struct Rooms {
    first: Room,
    second: Room,
    out: Room,
}

/// What the library handed over is what the reference hands over; if not, the process ends.
fn compare(rooms: &Rooms, answer: Answer, reply: &Reply, texts: [&[u8]; 2]) {
    assert_eq!(answer, reply.answer(texts), "the library's answer is not the reference's");
    assert!(rooms.out.has(&reply.bytes), "the bytes written are not {}", reply.bytes.escape_ascii());
    assert!(rooms.first.has(texts[0]) && rooms.second.has(texts[1]), "a text was changed");
}

/// The call with this letter on a first and a second text.
fn call_on_texts(rooms: &Rooms, letter: u8, walk: u64, length: usize, texts: [&[u8]; 2]) {
    let [first, second] = texts;
    let (one, two, out) = (rooms.first.hold(first), rooms.second.hold(second), rooms.out.lend(length));
    match letter {
        b'p' => compare(rooms, juzvarola_host::plan(one, walk, out), &reference::plan(first, walk, length), texts),
        b'o' => {
            let answer = juzvarola_host::optimum(one, walk, out);
            let reply = reference::optimum(first, length, NODES, rooms.out.written(answer.length));
            compare(rooms, answer, &reply, texts);
        }
        b'h' => compare(rooms, juzvarola_host::hall(one, walk, out), &reference::hall(first, walk, length), texts),
        b'j' => compare(rooms, juzvarola_host::judge(one, two, out), &reference::judge(first, second, length), texts),
        b'l' => compare(rooms, juzvarola_host::latest(one, two, out), &reference::latest(first, second, length), texts),
        b'a' => compare(rooms, juzvarola_host::carry(one, two, out), &reference::carry(first, second, length), texts),
        b'c' => count(one, first),
        _ => {}
    }
}

/// The count's call, as far as the reference walks.
fn count(lent: &[u8], text: &[u8]) {
    let answer = juzvarola_host::count(lent);
    let wanted = reference::count(text, NODES).answer(text, NODES, answer.count);
    assert_eq!(answer, wanted, "the library's count is not the reference's");
}

/// A form's horizon and its lists, a line each with commas: what is no number is passed over.
fn lists(text: &[u8]) -> (u32, Vec<Vec<u32>>) {
    let numbers = |line: &[u8]| -> Vec<u32> {
        let parsed = |word: &[u8]| std::str::from_utf8(word).ok()?.parse::<u64>().ok();
        line.split(|byte| *byte == b',').filter_map(parsed).map(|number| number as u32).collect()
    };
    let mut lines = text.split(|byte| *byte == b'\n').map(numbers);
    let horizon = lines.next().and_then(|line| line.first().copied()).unwrap_or(0);
    (horizon, lines.chain(std::iter::repeat(Vec::new())).take(LISTS).collect())
}

/// The writer's call.
fn write(rooms: &Rooms, length: usize, text: &[u8]) {
    let (horizon, lists) = lists(text);
    let lists: Vec<List> = lists.iter().map(|list| List::of(list)).collect();
    let form = form(horizon, std::array::from_fn(|at| lists[at].own()));
    let (one, two) = (rooms.first.hold(b""), rooms.second.hold(b""));
    let answer = juzvarola_host::write(&form, rooms.out.lend(length));
    // No line at fault is handed over, since there is no text of the caller's.
    let reply = reference::write(&form, length);
    compare(rooms, answer, &Reply { fault_start: 0, fault_length: 0, ..reply }, [one, two]);
    assert!(lists.iter().all(List::is_unchanged), "a list was changed");
}

/// The call that an input stands for.
fn call(rooms: &Rooms, input: &[u8]) {
    let [letter, numbers, text @ ..] = input else { return };
    let text = &text[..text.len().min(MOST)];
    let place = numbers.wrapping_sub(b'0');
    let (walk, length) = (WALKS[usize::from(place & 7)], ROOMS[usize::from(place >> 3 & 7)]);
    if *letter == b'w' {
        // The writer's output is the longer one.
        return write(rooms, if length == ROOMS[0] { ROOMS[1] } else { length }, text);
    }
    let length = if *letter == b'a' && length == ROOMS[0] { ROOMS[1] } else { length };
    let at = text.iter().position(|byte| *byte == BETWEEN).unwrap_or(text.len());
    call_on_texts(rooms, *letter, walk, length, [&text[..at], text.get(at + 1..).unwrap_or_default()]);
}

#[cfg(feature = "persistent")]
mod afl {
    //! AFL's runtime, which `fuzz.sh` links: many inputs a process, in memory that is shared.
    extern "C" {
        fn __afl_persistent_loop(count: u32) -> i32;
        static __afl_fuzz_ptr: *const u8;
        static __afl_fuzz_len: *const u32;
    }

    /// By these afl-fuzz sees that inputs come so.
    #[used]
    static PERSISTENT: [u8; 23] = *b"##SIG_AFL_PERSISTENT##\0";
    #[no_mangle]
    #[used]
    static mut __afl_sharedmem_fuzzing: i32 = 1;

    pub fn each(call: impl Fn(&[u8])) {
        // SAFETY: the runtime's own promise of its loop; between two rounds the input stays.
        unsafe {
            while __afl_persistent_loop(10_000) != 0 {
                if !__afl_fuzz_ptr.is_null() {
                    call(std::slice::from_raw_parts(__afl_fuzz_ptr, *__afl_fuzz_len as usize));
                }
            }
        }
    }
}

fn main() {
    let rooms = Rooms { first: Room::new(), second: Room::new(), out: Room::new() };
    let files: Vec<String> = std::env::args().skip(1).collect();
    for file in &files {
        call(&rooms, &std::fs::read(file).expect("the file is read"));
        println!("{file}: as the reference");
    }
    #[cfg(feature = "persistent")]
    if files.is_empty() {
        afl::each(|input| call(&rooms, input));
    }
}
