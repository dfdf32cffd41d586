//! What a text in a file costs the original to read and to write, and what stands in it.
use crate::kept;
use lef21::read::{parse_str, LefLexer};
use std::os::raw::c_long;

extern "C" {
    /// C's: the processor time that the program has taken, in microseconds.
    fn clock() -> c_long;
}

fn text(file: &str) -> String {
    std::fs::read_to_string(file).expect("a file of text")
}

/// Reads the text so many times, and says how many macros that were.
pub fn speed(file: &str, times: &str) -> String {
    let (src, times) = (text(file), times.parse().expect("how many times"));
    let macros: usize = (0..times).map(|_| parse_str(&src).expect("a text that is read").macros.len()).sum();
    format!("{} macros", macros)
}

/// How many tokens the text has, and how many things the original keeps of it: one for each record that is in force.
pub fn counts(file: &str) -> String {
    let src = text(file);
    let lib = parse_str(&src).expect("a text that is read");
    let tokens = LefLexer::new(&src).expect("a text that is read").count();
    format!("{} tokens {} records {} macros", tokens, kept::library(&lib).matches('(').count(), lib.macros.len())
}

/// The least nanoseconds of processor time of so many runs of a job.
fn least<A>(times: usize, mut job: impl FnMut() -> A) -> c_long {
    let now = || unsafe { clock() };
    let run = |_| {
        let start = now();
        drop(job());
        1000 * (now() - start)
    };
    (0..times).map(run).min().expect("at least one run")
}

/// What each of its jobs takes on the text: reading it into a library and giving that back, writing the library, its tokens alone.
pub fn jobs(file: &str, times: &str) -> String {
    let (src, times) = (text(file), times.parse().expect("how many times"));
    let lib = parse_str(&src).expect("a text that is read");
    let open = least(times, || parse_str(&src).expect("a text that is read"));
    let written = least(times, || lib.to_string().expect("a library that is written"));
    let tokens = least(times, || LefLexer::new(&src).expect("a text that is read").count());
    format!("open {}\nto_string {}\ntokens {}", open, written, tokens)
}
