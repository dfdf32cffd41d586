//! Asks lef21 0.2.0 and its rust_decimal what they make of the texts on standard input, one a line in hexadecimal, and
//! prints each answer on a line, in the words of this repository's programs.
//!
//! tokens:   `KIND START STOP LINE` for each token, then `end` or `bad PLACE LINE`
//! numerals: `- MILLIONTHS`, `+ MILLIONTHS`, or `not` where rust_decimal refuses, or millionths are not whole or too many
//! decimals: the number itself as rust_decimal holds it, `MANTISSA SCALE`, or `refused`
//! outcomes: `read`, or the refusal's number with place and line (`-` where the original gives none)
//! readings: `refusal NUMBER PLACE LINE`, or `read` and what the original keeps of the text, in the form that kept.rs defines
//! writings: what the original writes of what it reads, in hexadecimal, or `not read`, or `not written`
//!
//! `panic` stands for outcome, reading and writing of a text on which the original stops the program.
//!
//! Three more take a file with one text as it is: `counts FILE` says how much is in it, `speed FILE TIMES` reads it so many
//! times, for whoever takes the time (tools/lef21/speed), and `jobs FILE TIMES` takes the time of reading and of writing (bench/run).
//!
//! It starts as a C program does: Rust's own start looks for the stack in /proc/self/maps, at which qemu 8.2.2 falls over.
#![no_main]
mod kept;
mod numbers;
mod outcome;
mod speed;
mod tokens;

use std::io::{BufRead, Write};

fn text(line: &str) -> String {
    let bytes: Vec<u8> = (0..line.len() / 2).map(|i| u8::from_str_radix(&line[2 * i..2 * i + 2], 16).unwrap()).collect();
    String::from_utf8(bytes).expect("ASCII")
}

#[no_mangle]
pub extern "C" fn main() -> i32 {
    std::panic::catch_unwind(answer).map_or(101, |_| 0)
}

fn answer() {
    let args: Vec<String> = std::env::args().skip(1).collect();
    let args: Vec<&str> = args.iter().map(|a| a.as_str()).collect();
    let ask: fn(&str) -> String = match args[..] {
        ["counts", file] => return println!("{}", speed::counts(file)),
        ["speed", file, times] => return println!("{}", speed::speed(file, times)),
        ["jobs", file, times] => return println!("{}", speed::jobs(file, times)),
        ["tokens"] => tokens::all,
        ["numerals"] => numbers::numeral,
        ["decimals"] => numbers::decimal,
        ["outcomes"] => outcome::outcome,
        ["readings"] => outcome::reading,
        ["writings"] => outcome::writing,
        _ => panic!("usage: lef21-oracle tokens | numerals | decimals | outcomes | readings | writings | counts FILE | speed FILE TIMES | jobs FILE TIMES"),
    };
    let stdin = std::io::stdin();
    let mut out = std::io::BufWriter::new(std::io::stdout());
    for line in stdin.lock().lines() {
        writeln!(out, "{}", ask(&text(line.unwrap().trim()))).unwrap();
    }
}
