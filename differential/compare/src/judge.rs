//! The Rust as the judge: as released, and, where a build with overflow checks panics, with 01's added saturations.
use std::cell::Cell;
use std::panic::{self, UnwindSafe};

thread_local! {
    static QUIET: Cell<bool> = const { Cell::new(false) };
}

/// Panics inside `caught` print nothing; all others print as ever.
pub fn quiet_panics() {
    let usual = panic::take_hook();
    panic::set_hook(Box::new(move |info| {
        if !QUIET.with(Cell::get) {
            usual(info);
        }
    }));
}

/// What the call answers, or the panic's message.
pub fn caught<T>(call: impl FnOnce() -> T + UnwindSafe) -> Result<T, String> {
    let before = QUIET.with(|q| q.replace(true));
    let answer = panic::catch_unwind(call);
    QUIET.with(|q| q.set(before));
    answer.map_err(|e| match (e.downcast_ref::<&str>(), e.downcast_ref::<String>()) {
        (Some(s), _) => s.to_string(),
        (_, Some(s)) => s.clone(),
        _ => "a panic without words".to_string(),
    })
}

/// What the judge answers, and whether the Rust as released overflowed on the way.
#[derive(Clone, Debug, PartialEq)]
pub struct Verdict<T> {
    pub answer: T,
    pub overflowed: bool,
}

/// `judged!(o => EXPR)`: EXPR with `o` for the Rust as released, or for the saturating copy where the checked build panics.
/// EXPR is evaluated two or three times, so it builds its own input from what it borrows; its type names none of the crates.
/// A panic that is no overflow is the released Rust's own, and is passed on.
#[macro_export]
macro_rules! judged {
    ($o:ident => $body:expr) => {{
        let checked = $crate::judge::caught(std::panic::AssertUnwindSafe(|| {
            use oracle_checked as $o;
            $body
        }));
        match checked {
            Ok(_) => {
                use oracle as $o;
                $crate::judge::Verdict { answer: $body, overflowed: false }
            }
            Err(message) if message.contains("overflow") => {
                use oracle_saturating as $o;
                $crate::judge::Verdict { answer: $body, overflowed: true }
            }
            Err(message) => panic!("the Rust panicked: {message}"),
        }
    }};
}
