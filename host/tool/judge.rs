//! `judge`: the verdict in words.

use crate::arguments::JudgeOrder;
use crate::failure::{status_of, Failure};
use crate::json::Value;
use crate::naming::Naming;
use crate::{standard_output, verdicts};

/// Judges and says the verdict, on standard output: nothing else goes there.
pub fn run(order: &JudgeOrder) -> Result<u8, Failure> {
    let judged = verdicts::judge_files(&order.pair, &Naming::read(&order.naming)?)?;
    let text = match order.json {
        true => Value::object(verdicts::headed("judge", judged.json())).document(),
        false => {
            let others = judged
                .failing()
                .into_iter()
                .filter(|late| order.verbose && !judged.words.starts_with(&late.words(&judged.job, &judged.naming)));
            let others: String = others.map(|late| format!("    {}\n", late.words(&judged.job, &judged.naming))).collect();
            judged.message() + &others
        }
    };
    standard_output::write(text.as_bytes())?;
    Ok(status_of(judged.result))
}
