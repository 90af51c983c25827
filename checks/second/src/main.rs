//! second [--trace] < FILE.wmf > FILE.pbm: behaves as wmftopbm does.

use second::program;
use std::io::{Read, Write};
use std::os::unix::ffi::OsStringExt;

fn main() {
    let outcome = match program::arguments(std::env::args_os().skip(1).map(|word| word.into_vec())) {
        Err(outcome) => outcome,
        Ok(trace) => {
            let mut input = vec![];
            if std::io::stdin().take(program::INPUT as u64).read_to_end(&mut input).is_err() {
                std::process::exit(1);
            }
            program::play(&input, trace, |_| ())
        }
    };
    let mut out = std::io::stdout();
    let written = out.write_all(&outcome.out).and_then(|_| out.flush());
    let _ = std::io::stderr().write_all(&outcome.err);
    std::process::exit(if written.is_ok() { outcome.status } else { 1 });
}
