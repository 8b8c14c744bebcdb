//! Runs a script on two threads at once, and prints the answers of one, as `snap_replay run` does:
//!
//!     example [--strict] [--stop] SCRIPT

use std::io::Write;
use std::process::ExitCode;
use std::{env, fs, io, thread};

const NO_ROOM: u32 = 6;

#[link(name = "snap_c", kind = "static")]
#[link(name = "libc_c", kind = "static")]
unsafe extern "C" {
    fn pibroulez_run(
        script: *const u8,
        script_length: usize,
        strict: bool,
        stop: bool,
        answers: *mut u8,
        answers_length: usize,
        written: *mut usize,
        line: *mut u64,
    ) -> u32;
}

/// How a script's run ended.
#[derive(Debug, PartialEq, Eq)]
struct Ended {
    status: u32,
    line: u64,
    answers: Vec<u8>,
}

/// Runs a script. The room for the answers begins with 4096 bytes, and grows to what they take.
fn run(script: &[u8], strict: bool, stop: bool) -> Ended {
    let (mut answers, mut written, mut line) = (vec![0; 4096], 0, 0);
    loop {
        // SAFETY: the slices and the numbers are apart, and a slice's pointer isn't null.
        let status = unsafe {
            pibroulez_run(
                script.as_ptr(),
                script.len(),
                strict,
                stop,
                answers.as_mut_ptr(),
                answers.len(),
                &mut written,
                &mut line,
            )
        };
        if status != NO_ROOM {
            answers.truncate(written);
            return Ended { status, line, answers };
        }
        answers.resize(written, 0);
    }
}

fn main() -> ExitCode {
    let words: Vec<String> = env::args().skip(1).collect();
    let [strict, stop] = ["--strict", "--stop"].map(|it| words.iter().any(|word| word == it));
    let path = words.iter().find(|it| !it.starts_with("--")).expect("no script");
    let script = fs::read(path).expect(path);
    let [one, other] = thread::scope(|threads| {
        [(), ()]
            .map(|()| threads.spawn(|| run(&script, strict, stop)))
            .map(|it| it.join().expect("a run doesn't panic"))
    });
    assert_eq!(one, other);
    io::stdout().write_all(&one.answers).expect("standard output");
    if one.line > 0 {
        eprintln!("line {}", one.line);
    }
    ExitCode::from(one.status as u8)
}
