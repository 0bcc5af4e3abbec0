//! Words that go with a number.

/// So many of something: `1 cell`, `2 cells`.
pub fn count(count: impl Into<usize>, one: &str) -> String {
    match count.into() {
        1 => format!("1 {one}"),
        many => format!("{many} {one}s"),
    }
}
