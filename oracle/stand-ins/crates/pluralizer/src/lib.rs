//! Stand-in: only error messages use it, and no answer prints one.

pub fn pluralize(word: &str, count: isize, with_count: bool) -> String {
    let word = if count == 1 { word.to_string() } else { format!("{word}s") };
    if with_count {
        format!("{count} {word}")
    } else {
        word
    }
}
