//! What the program holds itself to: published vectors, the number that a question was made for, the counts by walking
//! against those by formula. When one of these does not hold, the program is wrong and stops.
//!
//! `tests/second/teeth` runs faulty copies of the program to show that comparing them with the library finds the fault.
//! A copy that stopped here would show nothing of the kind, so SECOND_UNCHECKED in the environment lets it run on.

use std::sync::OnceLock;

fn unchecked() -> bool {
    static UNCHECKED: OnceLock<bool> = OnceLock::new();
    *UNCHECKED.get_or_init(|| std::env::var_os("SECOND_UNCHECKED").is_some())
}

/// Stops the program with a sentence unless the statement is true.
pub fn hold(truth: bool, what: impl FnOnce() -> String) {
    if !truth && !unchecked() {
        eprintln!("second: this does not hold in the second program itself: {}", what());
        std::process::exit(3);
    }
}
