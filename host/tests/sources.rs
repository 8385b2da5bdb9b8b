//! What the library's sources must not have, which no contract says.

use std::path::Path;

/// "No division or remainder on the way to a digit": no `/` and no `%` in the code that finds digits and writes them.
#[test]
fn digits_are_found_without_dividing() {
    let folder = Path::new(env!("CARGO_MANIFEST_DIR")).join("../crates/line_writing/src");
    for file in ["digits.rt", "write.rt"] {
        let text = std::fs::read_to_string(folder.join(file)).expect("a source");
        let code = |line: &&str| !line.trim_start().starts_with("//");
        let dividing: Vec<&str> = text.lines().filter(code).filter(|line| line.contains('/') || line.contains('%')).collect();
        assert!(dividing.is_empty(), "{file}: {dividing:?}");
        assert!(text.lines().filter(code).count() > 20, "{file} is not what it was");
    }
}
