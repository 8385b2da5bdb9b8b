//! What the library is asked and what it should hand over, as its own types say it: by this it is compared with the reference.

use crate::reference::{Counted, Reply};
use juzvarola_host::{Answer, Count, Form};

/// How many lists an order form has.
pub const LISTS: usize = 16;

/// The form of these lists, which come in the job text's order.
pub fn form(horizon: u32, lists: [&[u32]; LISTS]) -> Form<'_> {
    let [idles, openings, fees, lives, lefts, covered, removals, insides, holders, ruled, bases, drops, leasts, banded, lows, prices] =
        lists;
    Form {
        horizon,
        idles,
        openings,
        fees,
        lives,
        lefts,
        covered,
        removals,
        insides,
        holders,
        ruled,
        bases,
        drops,
        leasts,
        banded,
        lows,
        prices,
    }
}

impl Reply {
    /// The answer to a call on these texts, with its line at fault as a part of one of them.
    pub fn answer<'t>(&self, texts: [&'t [u8]; 2]) -> Answer<'t> {
        let at_fault = if self.text == 2 { texts[1] } else { texts[0] };
        let Reply { result, text, line, fault_start, .. } = *self;
        Answer { result, text, line, length: self.bytes.len(), fault_start, fault: &at_fault[fault_start..][..self.fault_length] }
    }

    /// The writer's answer: it has no text of the caller's, so it hands over no line at fault.
    pub fn answer_on_no_text(&self) -> Answer<'static> {
        Reply { fault_start: 0, fault_length: 0, ..self.clone() }.answer([&[]; 2])
    }
}

impl Counted {
    /// The answer to the count's call on a text. Where the reference walked as many nodes as it may, the count is `found`, if it is no less.
    pub fn answer<'t>(&self, text: &'t [u8], most: u64, found: u32) -> Count<'t> {
        let Counted { result, text: at, line, fault_start, .. } = *self;
        let count = if self.count < most { self.count as u32 } else { found.max(most as u32) };
        Count { result, text: at, line, count, fault_start, fault: &text[fault_start..][..self.fault_length] }
    }
}
