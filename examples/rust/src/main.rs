//! check KEYS AADHEX [strict] < INPUT > PASSED: what cose-gate does, by the library. Build and run: `bash scripts/c-library.sh rust`.
use cose_gate::{check, GateError};
use std::io::{Read, Write};
use std::process::ExitCode;

/// The bytes that hex digits stand for.
fn of_hex(text: &str) -> Option<Vec<u8>> {
    if text.len() % 2 != 0 || !text.bytes().all(|digit| digit.is_ascii_hexdigit()) {
        return None;
    }
    (0..text.len() / 2)
        .map(|i| u8::from_str_radix(&text[2 * i..2 * i + 2], 16).ok())
        .collect()
}

/// Writes what passed and the lines, as the program does.
fn tell(passed: &[u8], lines: &[u8], status: u8) -> ExitCode {
    let _ = std::io::stderr().write_all(lines);
    let mut out = std::io::stdout();
    match out.write_all(passed).and_then(|()| out.flush()) {
        Ok(()) => ExitCode::from(status),
        Err(_) => ExitCode::from(4),
    }
}

fn main() -> ExitCode {
    let words: Vec<String> = std::env::args().collect();
    if words.len() < 3 || words.len() > 4 {
        eprintln!("usage: check KEYS AADHEX [strict] < INPUT > PASSED");
        return ExitCode::from(2);
    }
    let Ok(keys) = std::fs::read(&words[1]) else {
        eprintln!("keys: cannot be read");
        return ExitCode::from(3);
    };
    let Some(aad) = of_hex(&words[2]) else {
        eprintln!("aad: not hex");
        return ExitCode::from(2);
    };
    let mut input = Vec::new();
    if std::io::stdin().read_to_end(&mut input).is_err() {
        return ExitCode::from(4);
    }
    match check(&keys, &aad, &input, words.len() == 4) {
        Ok(checked) => tell(&checked.passed, &checked.lines, u8::from(checked.some_refused)),
        Err(GateError::Keys { lines }) => tell(&[], &lines, 3),
        Err(GateError::Stopped { passed, lines }) => tell(&passed, &lines, 4),
        Err(fault) => {
            eprintln!("{fault}");
            ExitCode::from(2)
        }
    }
}
