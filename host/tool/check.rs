//! `check`: whether a job text is well formed, and what it says.

use crate::failure::Failure;
use crate::numbers::counted;
use crate::{calls, faults, files, standard_output, texts};
use std::ffi::OsStr;

/// Looks at the text and says what the job is.
pub fn run(job: &OsStr) -> Result<u8, Failure> {
    let input = files::read(job)?;
    if let Some(reply) = calls::job_fault(&input.bytes)? {
        return Err(faults::refusal(&reply, &input, None));
    }
    let job = texts::job(&input.bytes);
    let held = job.parts.iter().filter(|part| !part.holders.is_empty()).count() as u64;
    let mut words =
        vec![counted(job.horizon, "step"), counted(job.openings.len() as u64, "opening"), counted(job.parts.len() as u64, "part")];
    words.extend(Some(job.idles.len() as u64).filter(|idles| *idles > 0).map(|idles| counted(idles, "idle step")));
    let ruled = job.parts.iter().filter(|part| part.rule.is_some()).count() as u64;
    words.extend(Some(ruled).filter(|ruled| *ruled > 0).map(|ruled| format!("{} with prices by a rule", counted(ruled, "part"))));
    let bands = job.parts.iter().map(|part| part.bands).sum::<u64>();
    words.extend(Some(bands).filter(|bands| *bands > 0).map(|bands| format!("{} from-to", counted(bands, "price"))));
    words.extend(Some(held).filter(|held| *held > 0).map(|held| format!("{} behind others", counted(held, "part"))));
    standard_output::write(format!("{}: a job without faults: {} (0)\n", input.name, words.join(", ")).as_bytes())?;
    Ok(0)
}
