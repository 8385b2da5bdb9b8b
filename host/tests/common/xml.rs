//! A strict reader of XML, as far as the drawings use it. What is not well formed is a panic that says so.

/// An element: its name, its attributes, the names of those around it, and the text directly within it.
#[derive(Debug, Clone, Default)]
pub struct Element {
    pub name: String,
    pub attributes: Vec<(String, String)>,
    pub within: Vec<String>,
    pub text: String,
}

impl Element {
    pub fn get(&self, name: &str) -> Option<&str> {
        self.attributes.iter().find(|(own, _)| own == name).map(|(_, value)| value.as_str())
    }

    pub fn number(&self, name: &str) -> f64 {
        self.get(name).unwrap_or_else(|| panic!("{name} of {self:?}")).parse().unwrap_or_else(|_| panic!("{name} of {self:?} is a number"))
    }

    pub fn is(&self, class: &str) -> bool {
        self.get("class").is_some_and(|own| own.split(' ').any(|word| word == class))
    }
}

/// All elements, in the order in which they begin.
pub fn elements(text: &str) -> Vec<Element> {
    let mut elements: Vec<Element> = Vec::new();
    let mut open: Vec<usize> = Vec::new();
    let mut rest = text;
    while !rest.is_empty() {
        let at = rest.find('<').unwrap_or(rest.len());
        let words = unescaped(&rest[..at]);
        match open.last() {
            Some(element) => elements[*element].text += &words,
            None => assert!(words.trim().is_empty(), "text outside the root: {words:?}"),
        }
        rest = &rest[at..];
        if rest.is_empty() {
            break;
        }
        let end = rest.find('>').unwrap_or_else(|| panic!("a tag does not end: {:?}", &rest[..rest.len().min(80)]));
        let tag = &rest[1..end];
        rest = &rest[end + 1..];
        if tag.starts_with('?') || tag.starts_with('!') {
            assert!(elements.is_empty(), "<{tag}> stands before the root");
        } else if let Some(name) = tag.strip_prefix('/') {
            let last = open.pop().unwrap_or_else(|| panic!("</{name}> ends nothing"));
            assert_eq!(elements[last].name, name, "tags end in order");
        } else {
            assert!(!open.is_empty() || elements.is_empty(), "there is one root");
            let within = open.iter().map(|at| elements[*at].name.clone()).collect();
            elements.push(Element { within, ..element(tag.trim_end_matches('/')) });
            if !tag.ends_with('/') {
                open.push(elements.len() - 1);
            }
        }
    }
    assert!(open.is_empty(), "every element ends: {:?}", open.last().map(|at| &elements[*at]));
    elements
}

/// The name and the attributes of a tag.
fn element(tag: &str) -> Element {
    let (name, mut rest) = tag.split_once(char::is_whitespace).unwrap_or((tag, ""));
    let named = |name: &str| !name.is_empty() && name.chars().all(|letter| letter.is_ascii_alphanumeric() || "-:".contains(letter));
    assert!(named(name), "an element's name: {tag:?}");
    let mut attributes: Vec<(String, String)> = Vec::new();
    loop {
        rest = rest.trim_start();
        if rest.is_empty() {
            return Element { name: name.to_string(), attributes, ..Element::default() };
        }
        let (own, after) = rest.split_once("=\"").unwrap_or_else(|| panic!("an attribute of {tag:?}"));
        let (value, after) = after.split_once('"').unwrap_or_else(|| panic!("an attribute of {tag:?} does not end"));
        assert!(named(own) && !value.contains('<'), "an attribute of {tag:?}");
        assert!(attributes.iter().all(|(other, _)| other != own), "an attribute twice in {tag:?}");
        attributes.push((own.to_string(), unescaped(value)));
        rest = after;
    }
}

/// A text with its entities replaced.
fn unescaped(text: &str) -> String {
    assert!(text.chars().all(|letter| !letter.is_control() || letter == '\n'), "a control character in {text:?}");
    let mut parts = text.split('&');
    let mut out = parts.next().unwrap_or("").to_string();
    for part in parts {
        let (entity, after) = part.split_once(';').unwrap_or_else(|| panic!("a bare & in {text:?}"));
        out += match entity {
            "amp" => "&",
            "lt" => "<",
            "gt" => ">",
            "quot" => "\"",
            other => panic!("an unknown entity &{other};"),
        };
        out += after;
    }
    out
}
