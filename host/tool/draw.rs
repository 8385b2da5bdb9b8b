//! `draw`: the plan as a calendar, an SVG picture or a page; or its stops for a calendar program.

use crate::arguments::DrawOrder;
use crate::failure::{failure, status_of, Failure, USAGE};
use crate::naming::Naming;
use crate::{closed, drawing, files, ics, output, past, standard_output, verdicts};
use std::ffi::OsStr;
use std::path::Path;

/// What is drawn.
#[derive(PartialEq)]
enum Form {
    Picture,
    Page,
    Calendar,
}

/// Judges the plan, then draws it. The verdict is said on standard output, where the picture doesn't go there and somebody hears.
pub fn run(order: &DrawOrder) -> Result<u8, Failure> {
    let form = form_of(&order.output)?;
    if form == Form::Calendar && order.naming.from.is_none() {
        return Err(failure(USAGE, "a calendar (.ics) needs --from DATE, the first step's"));
    }
    let naming = Naming::read(&order.naming)?;
    let judged = match order.logs.is_empty() {
        true => verdicts::stand_files(&order.pair, &naming)?,
        false => past::stand(&order.pair, &order.logs, &naming)?,
    };
    let names = order.naming.names.as_deref();
    let inputs = [Some(&*order.pair.job), Some(&*order.pair.plan), names].into_iter().flatten();
    let inputs: Vec<&OsStr> = inputs.chain(order.logs.iter().map(|log| &**log)).collect();
    files::not_among(&order.output, &inputs)?;
    let text = match form {
        Form::Picture => drawing::picture(&judged),
        Form::Page => drawing::page(&judged),
        Form::Calendar => ics::calendar(&judged),
    };
    files::write(&order.output, text.as_bytes())?;
    match files::is_standard(&order.output) || closed::output() {
        true => output::say(&judged.message()),
        false => standard_output::write(judged.message().as_bytes())?,
    }
    Ok(status_of(judged.result))
}

/// The form by the file's ending; standard output and devices, which have none, get a picture.
fn form_of(path: &OsStr) -> Result<Form, Failure> {
    let place = Path::new(path);
    let ending = place.extension().map(|ending| ending.to_string_lossy().to_lowercase());
    match ending.as_deref() {
        Some("svg") => Ok(Form::Picture),
        Some("html" | "htm") => Ok(Form::Page),
        Some("ics") => Ok(Form::Calendar),
        _ if files::is_standard(path) || (place.exists() && !place.is_file() && !place.is_dir()) => Ok(Form::Picture),
        _ => Err(failure(
            USAGE,
            format_args!("{} ends neither in .svg nor in .html nor in .ics; the ending says what is drawn", files::name_of(path)),
        )),
    }
}
