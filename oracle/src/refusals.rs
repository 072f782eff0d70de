//! The error texts of the reference and of `windows.rs` as the scope's refusal numbers.

const WHOLE: [(&str, u8); 20] = [
    ("invalid version or title", 1),
    ("model size limit", 2),
    ("invalid analysis limits", 3),
    ("invalid alphabet or gaps", 4),
    ("stale_after exceeds 86400", 5),
    ("invalid entity domain", 6),
    ("events must be ordered within horizon", 9),
    ("duplicate/empty invariant id", 10),
    ("empty invariant predicate", 11),
    ("response deadline limit", 12),
    ("duplicate/empty automation id", 13),
    ("invalid automation bounds", 14),
    ("action depth exceeds 16", 16),
    ("more than 512 actions", 17),
    ("delay exceeds 86400 seconds", 18),
    ("wait timeout exceeds 86400", 19),
    ("verification requires at least one invariant", 20),
    ("a confirmed modeled violation is required", 21),
    ("invalid window", 50),
    ("window in an invariant", 51),
];

pub fn number(error: &str) -> u8 {
    if let Some((_, number)) = WHOLE.iter().find(|(text, _)| *text == error) {
        *number
    } else if error.starts_with("undeclared entity: ") {
        7
    } else if error.starts_with("value ") && error.ends_with(" domain") {
        8
    } else if error.starts_with("undeclared trigger entity: ") {
        15
    } else {
        panic!("an error text of the reference without a number: {error}")
    }
}
