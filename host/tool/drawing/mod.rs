//! A plan drawn as a calendar, and a front as columns: SVG, alone or within a page of HTML. No script, nothing fetched, legible in black and white.

mod calendar;
mod foot;
mod front;
mod hall;
mod labels;
mod marks;
mod page;
mod rows;
mod sheet;
mod style;

pub use page::page;

use crate::front::Front;
use crate::hall::Planned;
use crate::verdicts::Judged;

/// The picture alone, as an SVG file.
pub fn picture(judged: &Judged) -> String {
    file(&calendar::svg(judged))
}

/// A front as an SVG file.
pub fn front(front: &Front) -> String {
    file(&front::svg(front))
}

/// A hall as an SVG file.
pub fn hall(planned: &Planned) -> String {
    file(&hall::svg(planned))
}

/// The file of a picture.
fn file(svg: &str) -> String {
    format!("<?xml version=\"1.0\" encoding=\"UTF-8\"?>\n{svg}")
}
