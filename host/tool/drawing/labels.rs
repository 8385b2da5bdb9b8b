//! Where labels go that would stand on each other, and words that would not go into one line.

/// Places for labels over these positions, which rise: at least `gap` apart, within the limits, as near to the positions as can be
/// (least squares: neighbours that are too close are moved together as one block).
pub fn spread(positions: &[f64], gap: f64, low: f64, high: f64) -> Vec<f64> {
    // Less what the labels before it take, each place may be anything that does not fall.
    let mut blocks: Vec<(f64, usize)> = Vec::new();
    for (at, position) in positions.iter().enumerate() {
        let mut block = (position - at as f64 * gap, 1);
        while let Some((sum, count)) = blocks.last().copied().filter(|(sum, count)| sum / *count as f64 > block.0 / block.1 as f64) {
            blocks.pop();
            block = (block.0 + sum, block.1 + count);
        }
        blocks.push(block);
    }
    let most = high - gap * positions.len().saturating_sub(1) as f64;
    let means = blocks.into_iter().flat_map(|(sum, count)| vec![sum / count as f64; count]);
    means.enumerate().map(|(at, mean)| mean.min(most).max(low) + at as f64 * gap).collect()
}

/// A distance between labelled steps: the least of 1, 2, 5, 10, .. whose labels stand apart.
pub fn round_distance(step_width: f64, label_width: f64) -> u64 {
    let distances = [1, 2, 5, 10, 20, 50, 100];
    distances.into_iter().find(|distance| *distance as f64 * step_width >= label_width).unwrap_or(200)
}

/// Lines of these words, with `between` from one to the next, that are no wider than this where a letter is as wide as `letter`. A word that is wider
/// by itself is broken.
pub fn lines<'w>(words: impl IntoIterator<Item = &'w str>, between: &str, width: f64, letter: f64) -> Vec<String> {
    let most = ((width / letter) as usize).max(1);
    let mut lines = vec![String::new()];
    for word in words {
        let last = lines.len() - 1;
        let room = most.saturating_sub(lines[last].chars().count() + between.chars().count());
        if lines[last].is_empty() {
            lines[last] += word;
        } else if word.chars().count() <= room {
            lines[last] += between;
            lines[last] += word;
        } else {
            lines.push(word.to_string());
        }
        while let Some((at, _)) = lines.last().and_then(|line| line.char_indices().nth(most)) {
            let rest = lines.last_mut().map(|line| line.split_off(at)).unwrap_or_default();
            lines.push(rest);
        }
    }
    lines
}

/// The last part of a path, as much of it as has room.
pub fn file_name(name: &str) -> String {
    let last = name.rsplit('/').next().unwrap_or(name);
    cut(last, 80)
}

/// As many letters as there is room for.
pub fn cut(name: &str, most: usize) -> String {
    match name.char_indices().nth(most) {
        Some((at, _)) => format!("{}..", &name[..at]),
        None => name.to_string(),
    }
}
