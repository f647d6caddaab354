//! Questions on stdin, one a line; answers on stdout. What makes the Rust panic is answered `panic`.
use std::io::{BufRead, Write};

fn main() {
    std::panic::set_hook(Box::new(|_| {}));
    let mut out = std::io::stdout().lock();
    for line in std::io::stdin().lock().lines().map(Result::unwrap) {
        let answer = std::panic::catch_unwind(|| driver::answer(&line)).unwrap_or_else(|_| "panic".into());
        writeln!(out, "{answer}").unwrap();
    }
}
