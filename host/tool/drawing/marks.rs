//! The marks that a picture is made of: elements of SVG with their attributes, well formed whatever the names are.

use super::style::{HATCH, STYLE};

/// A picture so far.
pub struct Marks {
    text: String,
}

/// A text for XML: what has a meaning there is escaped, what may not stand there is replaced.
pub fn escaped(text: &str) -> String {
    let mut out = String::new();
    for character in text.chars() {
        match character {
            '&' => out.push_str("&amp;"),
            '<' => out.push_str("&lt;"),
            '>' => out.push_str("&gt;"),
            '"' => out.push_str("&quot;"),
            '\u{fffe}' | '\u{ffff}' => out.push('\u{fffd}'),
            control if control.is_control() => out.push('\u{fffd}'),
            other => out.push(other),
        }
    }
    out
}

/// A length with at most two decimals.
pub fn length(value: f64) -> String {
    let text = format!("{value:.2}");
    text.trim_end_matches('0').trim_end_matches('.').to_string()
}

impl Marks {
    /// An empty sheet of this size, with the words that are read out in the picture's place.
    pub fn sheet((width, height): (f64, f64), words: &str) -> Marks {
        let size = format!("width=\"{0}\" height=\"{1}\" viewBox=\"0 0 {0} {1}\"", length(width), length(height));
        let open = format!("<svg xmlns=\"http://www.w3.org/2000/svg\" {size} role=\"img\" aria-label=\"{}\">\n", escaped(words));
        let mut marks = Marks { text: format!("{open}<style>\n{STYLE}</style>\n{HATCH}") };
        marks.rectangle("sheet", (0.0, 0.0), (width, height), &[], "");
        marks
    }

    /// An element with these attributes, and with a tip of its own where there is one.
    pub fn element(&mut self, name: &str, attributes: &[(&str, String)], tip: &str) {
        self.text += &format!("<{name}{}", listed(attributes));
        self.text += &if tip.is_empty() { "/>\n".to_string() } else { format!("><title>{}</title></{name}>\n", escaped(tip)) };
    }

    /// A rectangle.
    pub fn rectangle(&mut self, class: &str, at: (f64, f64), size: (f64, f64), more: &[(&str, String)], tip: &str) {
        let own =
            [("class", class.to_string()), ("x", length(at.0)), ("y", length(at.1)), ("width", length(size.0)), ("height", length(size.1))];
        self.element("rect", &[&own, more].concat(), tip);
    }

    /// A disc.
    pub fn circle(&mut self, class: &str, at: (f64, f64), radius: f64, more: &[(&str, String)], tip: &str) {
        let own = [("class", class.to_string()), ("cx", length(at.0)), ("cy", length(at.1)), ("r", length(radius))];
        self.element("circle", &[&own, more].concat(), tip);
    }

    /// A straight line.
    pub fn line(&mut self, class: &str, from: (f64, f64), to: (f64, f64), more: &[(&str, String)]) {
        let own =
            [("class", class.to_string()), ("x1", length(from.0)), ("y1", length(from.1)), ("x2", length(to.0)), ("y2", length(to.1))];
        self.element("line", &[&own, more].concat(), "");
    }

    /// A filled shape through these points.
    pub fn polygon(&mut self, class: &str, points: &[(f64, f64)], more: &[(&str, String)]) {
        let points: Vec<String> = points.iter().map(|(x, y)| format!("{},{}", length(*x), length(*y))).collect();
        self.element("polygon", &[&[("class", class.to_string()), ("points", points.join(" "))], more].concat(), "");
    }

    /// Words.
    pub fn words(&mut self, class: &str, at: (f64, f64), words: &str) {
        let own = [("class", class.to_string()), ("x", length(at.0)), ("y", length(at.1))];
        self.text += &format!("<text{}>{}</text>\n", listed(&own), escaped(words));
    }

    /// Words with a white edge, which stay legible on a dark ground.
    pub fn words_on_white(&mut self, class: &str, at: (f64, f64), words: &str) {
        let own = [("class", format!("{class} edge")), ("x", length(at.0)), ("y", length(at.1)), ("aria-hidden", "true".to_string())];
        self.text += &format!("<text{}>{}</text>\n", listed(&own), escaped(words));
        self.words(class, at, words);
    }

    /// Words that run upwards from here.
    pub fn words_upwards(&mut self, class: &str, at: (f64, f64), words: &str) {
        let turn = format!("translate({} {}) rotate(-90)", length(at.0), length(at.1));
        self.text += &format!("<text{}>{}</text>\n", listed(&[("class", class.to_string()), ("transform", turn)]), escaped(words));
    }

    /// Words in lines beneath each other.
    pub fn lines(&mut self, class: &str, at: (f64, f64), distance: f64, lines: &[String]) {
        lines.iter().zip(0u8..).for_each(|(line, below)| self.words(class, (at.0, at.1 + distance * f64::from(below)), line));
    }

    /// The whole picture.
    pub fn text(self) -> String {
        self.text + "</svg>\n"
    }
}

/// Attributes as they stand in a tag.
fn listed(attributes: &[(&str, String)]) -> String {
    attributes.iter().map(|(name, value)| format!(" {name}=\"{}\"", escaped(value))).collect()
}
