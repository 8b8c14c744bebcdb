//! Lists of lookups and edits: a word and a path a line.
//!
//! `look PATH` and the names of operations put something on a list, `looks N` carries the list of lookups out
//! N times, and `apply` the list of operations once, on each upper layer; `fill` does so as if there were no
//! lower layers. `commit` makes the upper layer the nearest lower one, and `uppers N` makes N empty ones in place
//! of those that are there. The lists stay until `clear`.

use crate::layer::{Layer, Lower, Lowers, Path, Seen, look};
use crate::operation::Operation;
use std::error::Error;
use std::io;
use std::rc::Rc;

struct Bench {
    lowers: Lowers,
    uppers: Vec<Layer>,
    paths: Vec<Path<'static>>,
    operations: Vec<Operation<'static>>,
}

pub fn run(lines: impl Iterator<Item = io::Result<String>>) -> Result<(), Box<dyn Error>> {
    let mut bench = Bench {
        lowers: None,
        uppers: vec![Layer::empty()],
        paths: Vec::new(),
        operations: Vec::new(),
    };
    for line in lines {
        let line = line?;
        match bench.take(&line) {
            Some(Some(answer)) => println!("{answer}"),
            Some(None) => {}
            None => return Err(format!("no such line: {line}").into()),
        }
    }
    Ok(())
}

impl Bench {
    /// The answer to the line, if it has one; nothing where the line is none.
    fn take(&mut self, line: &str) -> Option<Option<String>> {
        let (word, rest) = line.split_once(' ').unwrap_or((line, ""));
        match word {
            "look" => self.paths.push(path(rest)?),
            "looks" => return Some(Some(self.looks(rest.parse().ok()?))),
            "apply" => {
                return Some(Some(apply(
                    &mut self.uppers,
                    &self.lowers,
                    &self.operations,
                )));
            }
            "fill" => return Some(Some(apply(&mut self.uppers, &None, &self.operations))),
            "clear" => {
                self.paths.clear();
                self.operations.clear();
            }
            "commit" => {
                let layer = std::mem::replace(self.uppers.first_mut()?, Layer::empty());
                let below = self.lowers.take();
                self.lowers = Some(Rc::new(Lower::new(0, layer, below)));
            }
            "uppers" => {
                let count: usize = rest.parse().ok()?;
                self.uppers = (0..count).map(|_| Layer::empty()).collect();
            }
            _ => self.operations.push(operation(word, rest)?),
        }
        Some(None)
    }

    fn looks(&self, times: u64) -> String {
        let mut seen = 0u64;
        if let Some(upper) = self.uppers.first() {
            for _ in 0..times {
                for path in &self.paths {
                    if let Some(Seen::File { .. }) = look(upper, &self.lowers, path) {
                        seen += 1;
                    }
                }
            }
        }
        format!("seen {seen}")
    }
}

fn apply(uppers: &mut [Layer], lowers: &Lowers, operations: &[Operation]) -> String {
    let mut done = 0u64;
    for upper in &mut *uppers {
        for operation in operations {
            if operation.apply(upper, lowers).is_ok() {
                done += 1;
            }
        }
    }
    let usage = uppers.last().map(Layer::usage).unwrap_or_default();
    format!(
        "done {done} blocks {} inodes {}",
        usage.blocks, usage.inodes
    )
}

fn path(text: &str) -> Option<Path<'static>> {
    Path::parse(text.as_bytes().to_vec().into())
}

fn operation(word: &str, rest: &str) -> Option<Operation<'static>> {
    let (text, second) = rest.split_once(' ').unwrap_or((rest, ""));
    let path = path(text)?;
    Some(match word {
        "mkdir" => Operation::Mkdir { path, mode: 0o755 },
        "create" => Operation::Create { path, mode: 0o644 },
        "write" => Operation::Write {
            path,
            bytes: second.as_bytes().to_vec().into(),
        },
        "setmode" => Operation::SetMode { path, mode: 0o600 },
        "unlink" => Operation::Unlink { path },
        "rename" => Operation::Rename {
            from: path,
            to: self::path(second)?,
        },
        _ => return None,
    })
}
