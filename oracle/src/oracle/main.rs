//! Leads the unchanged piece picker through a script of calls: the script on standard input, the outcomes on standard output, both as
//! docs/CALLS.md describes them.

use oracle::{pick, run, script};
use std::cell::Cell;
use std::io::{self, Read, Write};
use std::panic;
use std::process::exit;

const BAD_SCRIPT: i32 = 2;
const INTERNAL_ERROR: i32 = 3;

thread_local! {
    /// The script's line whose call is being made.
    static LINE: Cell<usize> = const { Cell::new(0) };
}

/// A panic that a pick does not expect is an internal error and ends the program at once.
fn end_on_panic() {
    panic::set_hook(Box::new(|info| {
        if !pick::is_expected(info.payload()) {
            eprintln!("oracle: internal error at line {}: {info}", LINE.with(Cell::get));
            exit(INTERNAL_ERROR);
        }
    }));
}

fn main() -> io::Result<()> {
    let mut script = Vec::new();
    io::stdin().lock().read_to_end(&mut script)?;
    let calls = script::parse(&script).unwrap_or_else(|fault| {
        eprintln!("oracle: {fault}");
        exit(BAD_SCRIPT)
    });
    end_on_panic();
    let mut out = io::BufWriter::with_capacity(1 << 16, io::stdout().lock());
    let mut memory = run::Memory::default();
    for call in &calls {
        LINE.with(|line| line.set(call.line));
        memory.call(call, &mut out)?;
    }
    writeln!(out, "end {}", calls.len())?;
    out.flush()
}
