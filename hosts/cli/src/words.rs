//! Counts and choices in words.

/// So many of something.
pub fn counted(count: usize, one: &str) -> String {
    match count {
        1 => format!("1 {one}"),
        count => format!("{count} {one}s"),
    }
}

/// One of these: `4, 8 or 16`.
pub fn either(all: &[String]) -> String {
    match all {
        [front @ .., last] if !front.is_empty() => format!("{} or {last}", front.join(", ")),
        _ => all.concat(),
    }
}
