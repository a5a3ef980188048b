//! Compares the port with the original, by running both on the same cases.

mod case;
mod classes;
#[cfg(any(feature = "port", feature = "map-port"))]
mod documented;
#[cfg(feature = "port")]
mod encode;
mod generator;
mod keymap;
mod original;
#[cfg(feature = "port")]
mod port;
#[cfg(feature = "counted")]
mod progress;
mod sample;
mod table;
#[cfg(feature = "counted")]
mod tally;
#[cfg(feature = "text-port")]
mod text;

use std::env;
use std::process::ExitCode;

const USAGE: &str = "usage: compare encode | compare sample CASES ANSWERS | compare keymap \
    | compare keymap-sample CASES ANSWERS | compare keymap-bench | compare text | compare table \
    | compare table-sample LINES";

/// Ends with 0 where all is well, 1 at an unnamed difference or a failure, and 2 at bad usage.
fn main() -> ExitCode {
    let words: Vec<String> = env::args().skip(1).collect();
    let words: Vec<&str> = words.iter().map(String::as_str).collect();
    let done = match words.as_slice() {
        ["encode"] => compare_encode(),
        ["sample", cases, answers] => sample::write(cases, answers).map(|()| true),
        ["keymap"] => compare_keymap(),
        ["keymap-sample", cases, answers] => keymap::sample::write(cases, answers).map(|()| true),
        ["keymap-bench"] => time_keymap(),
        ["text"] => compare_text(),
        ["table"] => compare_table(),
        ["table-sample", lines] => table::sample::write(lines).map(|()| true),
        _ => {
            eprintln!("{USAGE}");
            return ExitCode::from(2);
        }
    };
    match done {
        Ok(true) => ExitCode::SUCCESS,
        Ok(false) => ExitCode::FAILURE,
        Err(message) => {
            eprintln!("compare: {message}");
            ExitCode::FAILURE
        }
    }
}

#[cfg(feature = "port")]
fn compare_encode() -> Result<bool, String> {
    encode::compare()
}

#[cfg(not(feature = "port"))]
fn compare_encode() -> Result<bool, String> {
    without("port")
}

#[cfg(feature = "map-port")]
fn compare_keymap() -> Result<bool, String> {
    keymap::compare::compare()
}

#[cfg(not(feature = "map-port"))]
fn compare_keymap() -> Result<bool, String> {
    without("map-port")
}

#[cfg(feature = "map-port")]
fn time_keymap() -> Result<bool, String> {
    keymap::bench::time().map(|()| true)
}

#[cfg(not(feature = "map-port"))]
fn time_keymap() -> Result<bool, String> {
    without("map-port")
}

#[cfg(feature = "text-port")]
fn compare_text() -> Result<bool, String> {
    text::compare()
}

#[cfg(not(feature = "text-port"))]
fn compare_text() -> Result<bool, String> {
    without("text-port")
}

#[cfg(feature = "table-port")]
fn compare_table() -> Result<bool, String> {
    table::compare::compare()
}

#[cfg(not(feature = "table-port"))]
fn compare_table() -> Result<bool, String> {
    without("table-port")
}

#[cfg(not(all(
    feature = "port",
    feature = "map-port",
    feature = "text-port",
    feature = "table-port"
)))]
fn without(feature: &str) -> Result<bool, String> {
    Err(format!(
        "built without the port: build with `--features {feature}`"
    ))
}
