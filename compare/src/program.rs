//! How the programs speak: output whole calls at a time, complaints on one line.

use std::{
    fs,
    io::{self, Read, Write},
    panic, process,
};

use crate::session::{is_in_a_call, panic_text};

/// One line on standard error, and a failing end. What was printed before is out already.
pub fn fail(message: &str) -> ! {
    eprintln!("{message}");
    process::exit(1);
}

/// Prints at once, so that nothing is lost where the program ends inside a driver call.
pub fn print(text: &str) {
    let mut out = io::stdout().lock();
    if out
        .write_all(text.as_bytes())
        .and_then(|()| out.flush())
        .is_err()
    {
        fail("standard output cannot be written");
    }
}

/// A file's bytes, or those of standard input.
pub fn read_input(file: Option<&str>) -> Vec<u8> {
    let Some(file) = file else {
        let mut text = Vec::new();
        return match io::stdin().lock().read_to_end(&mut text) {
            Ok(_) => text,
            Err(error) => fail(&format!("standard input: {error}")),
        };
    };
    fs::read(file).unwrap_or_else(|error| fail(&format!("{file}: {error}")))
}

/// The Rust's panics are reported by whoever runs the call. Others are faults of our own.
pub fn report_panics() {
    panic::set_hook(Box::new(|info| {
        if !is_in_a_call() {
            eprintln!("compare is at fault: {}", panic_text(info.payload()));
        }
    }));
}
