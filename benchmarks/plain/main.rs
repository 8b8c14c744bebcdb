//! A plain program to compare the product with; no part of it. It keeps layers as nested maps, and a store
//! of snapshots as maps of records, without proofs and without care for refused memory.
//!
//! `plain layers` carries out lists of lookups and edits (`edits.rs`), and `plain script` the lines of a script
//! that the benchmark uses (`script.rs`). Both read standard input. Of a list each answer is out before the next line
//! is read; of a script all answers are out before the program waits for more input, as the product does it. It has no
//! symlinks, hard links, views, sessions or sealed snapshots, no changes of the root, no rename onto what is seen, and
//! no lease ends by time; a change whose charge is refused stays. Other lines get the product's answers, refusals too.

mod edits;
mod json;
mod layer;
mod operation;
mod script;
mod store;

use std::io;
use std::process::ExitCode;

fn main() -> ExitCode {
    let ended = match std::env::args().nth(1).as_deref() {
        Some("layers") => edits::run(io::stdin().lines()),
        Some("script") => script::run(io::stdin().lock()),
        _ => Err("usage: plain layers|script".into()),
    };
    match ended {
        Ok(()) => ExitCode::SUCCESS,
        Err(error) => {
            eprintln!("{error}");
            ExitCode::FAILURE
        }
    }
}
