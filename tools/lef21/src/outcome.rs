//! Whether the original reads a text, and the refusal that the rules give for its error.
use crate::kept;
use lef21::read::{parse_str, LefParseErrorType};
use lef21::{LefError, LefLibrary};
use std::panic;

/// The refusal's number, with place and line where the error has them.
fn refusal(e: LefError) -> String {
    match e {
        LefError::Lex { line, pos, .. } => format!("3 {} {}", pos, line),
        LefError::Parse { tp, line_num, pos, .. } => {
            let n = match tp {
                LefParseErrorType::InvalidToken { .. } => 4,
                LefParseErrorType::InvalidKey => 5,
                LefParseErrorType::InvalidValue => 6,
                LefParseErrorType::RequiredWord { .. } => 7,
                LefParseErrorType::Unsupported => 8,
                LefParseErrorType::Other => panic!("another error"),
            };
            format!("{} {} {}", n, pos, line_num)
        }
        LefError::Boxed(_) => "9 - -".to_string(),
        LefError::Str(s) if s.contains("DBU") => "6 - -".to_string(),
        LefError::Str(s) if s.contains("class") || s.contains("size") => "10 - -".to_string(),
        other => panic!("{:?}", other),
    }
}

/// What the original makes of something, or nothing where it panics.
fn quietly<A>(make: impl FnOnce() -> A + panic::UnwindSafe) -> Option<A> {
    let loud = panic::take_hook();
    panic::set_hook(Box::new(|_| {}));
    let made = panic::catch_unwind(make).ok();
    panic::set_hook(loud);
    made
}

fn asked(src: &str) -> Option<Result<LefLibrary, LefError>> {
    quietly(|| parse_str(src))
}

pub fn outcome(src: &str) -> String {
    match asked(src) {
        Some(Ok(_)) => "read".to_string(),
        Some(Err(e)) => refusal(e),
        None => "panic".to_string(),
    }
}

pub fn reading(src: &str) -> String {
    match asked(src) {
        Some(Ok(lib)) => format!("read {}", kept::library(&lib)).trim_end().to_string(),
        Some(Err(e)) => format!("refusal {}", refusal(e)),
        None => "panic".to_string(),
    }
}

/// What the original writes of a text that it reads, in hexadecimal; `not read`, `not written` where it gives an error, or `panic`.
pub fn writing(src: &str) -> String {
    match asked(src) {
        Some(Ok(lib)) => match quietly(panic::AssertUnwindSafe(|| lib.to_string())) {
            Some(Ok(text)) => text.bytes().map(|b| format!("{:02x}", b)).collect(),
            Some(Err(_)) => "not written".to_string(),
            None => "panic".to_string(),
        },
        Some(Err(_)) => "not read".to_string(),
        None => "panic".to_string(),
    }
}
