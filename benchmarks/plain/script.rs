//! The lines of a script: a JSON object a line, and an answer a line.

use crate::json::{Reader, Value, Writer};
use crate::layer::{FsError, Path, Seen, Usage, error_at, list, look};
use crate::operation::Operation;
use crate::store::{Call, Refused, Reply, Store};
use std::borrow::Cow;
use std::collections::BTreeMap;
use std::error::Error;
use std::io::{self, BufRead, BufReader, Read, Write};

/// The bytes that are read at once, and as many written, but for a longer answer.
const BUFFER_BYTES: usize = 1 << 16;
const MAX_LINE_BYTES: usize = 1 << 24;

/// Lines are read where the input's buffer has them, but for one that two reads bring. Before it waits for more, it
/// writes all answers so far.
pub fn run(input: impl Read) -> Result<(), Box<dyn Error>> {
    let mut input = BufReader::with_capacity(BUFFER_BYTES, input);
    let mut script = Script {
        store: None,
        answers: Writer(Vec::with_capacity(2 * BUFFER_BYTES)),
    };
    // What has come of a line that has not ended.
    let mut begun = Vec::new();
    loop {
        let read = input.fill_buf()?;
        let count = read.len();
        if count == 0 {
            return (begun.is_empty() && script.store.is_some())
                .then_some(())
                .ok_or("the input ends too early".into());
        }
        let mut rest = read;
        if read.contains(&b'\n') {
            let end = read.iter().rposition(|byte| *byte == b'\n').unwrap_or(0) + 1;
            let mut lines = &read[..end];
            if !begun.is_empty() {
                begun.extend_from_slice(lines);
                lines = &begun;
            }
            script.answer_all(lines)?;
            begun.clear();
            rest = &read[end..];
        }
        begun.extend_from_slice(rest);
        if begun.len() > MAX_LINE_BYTES {
            return Err("a line is too long".into());
        }
        input.consume(count);
    }
}

struct Script {
    store: Option<Store>,
    answers: Writer,
}

impl Script {
    fn answer_all(&mut self, lines: &[u8]) -> Result<(), Box<dyn Error>> {
        let mut reader = Reader::new(str::from_utf8(lines)?.as_bytes());
        while !reader.is_at_end() {
            if !reader.ends_line() {
                if self.answer(&mut reader).is_none() {
                    self.write()?;
                    return Err("no such line".into());
                }
                self.answers.0.push(b'\n');
            }
            if self.answers.0.len() >= BUFFER_BYTES {
                self.write()?;
            }
        }
        self.write()
    }

    fn write(&mut self) -> Result<(), Box<dyn Error>> {
        let mut output = io::stdout().lock();
        output.write_all(&self.answers.0)?;
        output.flush()?;
        self.answers.0.clear();
        Ok(())
    }

    /// Carries the line out and writes its answer. There is none where it is no line.
    fn answer(&mut self, reader: &mut Reader) -> Option<()> {
        let mut fields = Fields::default();
        fields.read(reader)?;
        match &mut self.store {
            Some(store) => answer(store, &fields, &mut self.answers),
            None => {
                self.store = Some(open(&fields)?);
                self.answers.reply(&Reply::Done);
                Some(())
            }
        }
    }
}

macro_rules! fields {
    ($($field:ident $name:literal),*) => {
        /// The fields that some command has.
        #[derive(Default)]
        struct Fields<'a> {
            $($field: Option<Value<'a>>,)*
        }

        impl<'a> Fields<'a> {
            fn place(&mut self, name: &[u8]) -> Option<&mut Option<Value<'a>>> {
                match name {
                    $($name => Some(&mut self.$field),)*
                    _ => None,
                }
            }
        }
    };
}

fields! {
    verb b"do", ns b"ns", key b"key", parent b"parent", name b"name", after b"after", lease b"lease", path b"path",
    from b"from", to b"to", text b"text", fill b"fill", offset b"offset", size b"size", mode b"mode", need b"need",
    labels b"labels", blocks b"blocks", inodes b"inodes", namespaces b"namespaces"
}

impl<'a> Fields<'a> {
    /// Reads those of a line. The other members are tested and not kept.
    fn read(&mut self, line: &mut Reader<'a>) -> Option<()> {
        let mut goes_on = line.begins(b'{', b'}')?;
        while goes_on {
            match self.place(&line.name()?.bytes()) {
                Some(place) => *place = Some(line.value()?),
                None => line.skip()?,
            }
            goes_on = line.goes_on(b'}')?;
        }
        line.ends_line().then_some(())
    }
}

fn text<'a>(field: Option<Value<'a>>) -> Option<Cow<'a, [u8]>> {
    field?.text()
}

fn number(field: Option<Value>) -> Option<u64> {
    field?.number()
}

/// A number that may be left out.
fn number_or(default: u64, field: Option<Value>) -> Option<u64> {
    field.map_or(Some(default), Value::number)
}

fn path(field: Option<Value>) -> Option<Path> {
    Path::parse(text(field)?)
}

fn usage(field: Option<Value>) -> Option<Usage> {
    let (blocks, inodes) = field?.pair()?;
    Some(Usage { blocks, inodes })
}

fn open(fields: &Fields) -> Option<Store> {
    let mut limits = BTreeMap::new();
    for namespace in fields.namespaces?.elements()? {
        let parts: Vec<_> = namespace.elements()?.collect();
        let [name, blocks, inodes] = parts[..] else {
            return None;
        };
        let (blocks, inodes) = (blocks.number()?, inodes.number()?);
        limits.insert(name.text()?.into(), Usage { blocks, inodes });
    }
    Some(Store::open(limits))
}

/// Carries the line out and writes its answer. There is none where it is no line.
fn answer(store: &mut Store, fields: &Fields, out: &mut Writer) -> Option<()> {
    let command = &*text(fields.verb)?;
    if command == b"report" {
        store.report(out);
        return Some(());
    }
    if command == b"reopen" {
        if store.reopen() {
            out.reply(&Reply::Done);
        } else {
            out.raw(r#"{"error":"StillOut","from":"world"}"#);
        }
        return Some(());
    }
    let ns = &*text(fields.ns)?;
    if let Some(call) = call(command, fields) {
        match store.call(ns, call) {
            Ok(reply) => out.reply(reply),
            Err(refused) => refusal(store, ns, refused, out),
        }
        return Some(());
    }
    if command == b"tree" {
        if let Err(refused) = store.tree(ns, out) {
            refusal(store, ns, refused, out);
        }
        return Some(());
    }
    let key = &*text(fields.key)?;
    let told = match command {
        b"look" => seen(store, ns, key, &path(fields.path)?, out),
        b"list" => names(store, ns, key, &path(fields.path)?, out),
        b"resolve" => resolved(store, ns, key, &path(fields.path)?, out),
        _ => operate(store, ns, key, &operation(command, fields)?, out),
    };
    match told {
        Ok(()) => {}
        Err(Failed::File(error)) => {
            out.raw(r#"{"error":""#);
            out.raw(error.name());
            out.raw(r#"","from":"file"}"#);
        }
        Err(Failed::Refused(refused)) => refusal(store, ns, refused, out),
    }
    Some(())
}

fn refusal(store: &Store, ns: &[u8], refused: Refused, out: &mut Writer) {
    out.raw(r#"{"error":""#);
    out.raw(&format!("{refused:?}"));
    if refused == Refused::OverLimit
        && let Ok(free) = store.free(ns)
    {
        out.raw(r#"","free":"#);
        out.usage(free);
        out.raw(r#","from":"book"}"#);
    } else {
        out.raw(r#"","from":"book"}"#);
    }
}

/// The call that the line makes. There is none where it makes no entry, or where it is no line.
fn call<'a>(command: &[u8], fields: &Fields<'a>) -> Option<Call<Cow<'a, [u8]>>> {
    let key = || text(fields.key);
    let lease = || text(fields.lease);
    let name = || text(fields.name);
    Some(match command {
        b"prepare" => Call::Prepare(key()?, text(fields.parent)?),
        b"commit" => Call::Commit(key()?, name()?),
        b"remove" => Call::Remove(key()?),
        b"stat" => Call::Stat(key()?),
        b"walk" => Call::Walk(text(fields.after)?),
        b"charge" => Call::Charge(key()?, usage(fields.need)?),
        b"usage" => Call::Usage(key()?),
        b"update" => {
            let members = fields.labels?.members()?;
            let labels = members.map(|(label, value)| Some((label.bytes(), value.text()?)));
            let mut labels: Vec<_> = labels.collect::<Option<_>>()?;
            // Of equal labels the last counts.
            labels.reverse();
            labels.sort_by(|one, other| one.0.cmp(&other.0));
            labels.dedup_by(|one, other| one.0 == other.0);
            Call::Update(key()?, labels.into())
        }
        b"limit" => {
            let (blocks, inodes) = (number(fields.blocks)?, number(fields.inodes)?);
            Call::Limit(Usage { blocks, inodes })
        }
        b"lease_create" => Call::LeaseCreate(lease()?),
        b"lease_add" => Call::LeaseAdd(lease()?, name()?),
        b"lease_release" => Call::LeaseRelease(lease()?),
        b"sweep" => Call::Sweep,
        _ => return None,
    })
}

fn operation<'a>(command: &[u8], fields: &Fields<'a>) -> Option<Operation<'a>> {
    let path = || path(fields.path);
    let mode = |default| Some(number_or(default, fields.mode)?.min(u32::MAX.into()) as u32);
    let place = |number: u64| usize::try_from(number).ok();
    Some(match command {
        b"mkdir" => Operation::Mkdir {
            path: path()?,
            mode: mode(0o755)?,
        },
        b"create" => Operation::Create {
            path: path()?,
            mode: mode(0o644)?,
        },
        b"write" => Operation::WriteAt {
            path: path()?,
            offset: place(number_or(0, fields.offset)?)?,
            bytes: match fields.text {
                Some(text) => text.text()?,
                None => {
                    let (byte, count) = fields.fill?.pair()?;
                    vec![u8::try_from(byte).ok()?; place(count)?].into()
                }
            },
        },
        b"truncate" => Operation::Truncate {
            path: path()?,
            size: place(number(fields.size)?)?,
        },
        b"setmode" => Operation::SetMode {
            path: path()?,
            mode: mode(number(fields.mode)?)?,
        },
        b"unlink" => Operation::Unlink { path: path()? },
        b"rename" => Operation::Rename {
            from: self::path(fields.from)?,
            to: self::path(fields.to)?,
        },
        _ => return None,
    })
}

/// Why a file command or a lookup is refused.
enum Failed {
    File(FsError),
    Refused(Refused),
}

impl From<FsError> for Failed {
    fn from(error: FsError) -> Failed {
        Failed::File(error)
    }
}

impl From<Refused> for Failed {
    fn from(refused: Refused) -> Failed {
        Failed::Refused(refused)
    }
}

type Told = Result<(), Failed>;

/// Carries the operation out, and charges what the layer then takes.
fn operate(
    store: &mut Store,
    ns: &[u8],
    key: &[u8],
    operation: &Operation,
    out: &mut Writer,
) -> Told {
    let snapshot = store.snapshot(ns, key)?;
    let mut share = snapshot.charge;
    let (upper, lowers) = snapshot.upper()?;
    operation.apply(upper, lowers)?;
    let count = upper.usage();
    if !count.fits(share)
        && let Reply::Share(more) = store.call(ns, Call::Charge(key, count))?
    {
        share = *more;
    }
    out.raw(r#"{"count":"#);
    out.usage(count);
    out.raw(r#","share":"#);
    out.usage(share);
    out.raw("}");
    Ok(())
}

fn seen(store: &mut Store, ns: &[u8], key: &[u8], path: &Path, out: &mut Writer) -> Told {
    let (upper, lowers) = store.snapshot(ns, key)?.upper()?;
    match look(upper, lowers, path) {
        None => out.raw(r#"{"seen":null}"#),
        Some(Seen::Dir { mode }) => {
            out.raw(r#"{"seen":{"dir":"#);
            out.number(mode);
            out.raw("}}");
        }
        Some(Seen::File { mode, size }) => {
            out.raw(r#"{"seen":{"file":"#);
            out.number(mode);
            out.raw(r#","size":"#);
            out.number(size as u64);
            out.raw("}}");
        }
    }
    Ok(())
}

/// The path of what is seen there, since no layer has a symlink.
fn resolved(store: &mut Store, ns: &[u8], key: &[u8], path: &Path, out: &mut Writer) -> Told {
    let (upper, lowers) = store.snapshot(ns, key)?.upper()?;
    look(upper, lowers, path).ok_or_else(|| error_at(upper, lowers, path))?;
    out.raw(r#"{"path":"#);
    out.text(path.text());
    out.raw("}");
    Ok(())
}

/// The names in a directory.
fn names(store: &mut Store, ns: &[u8], key: &[u8], path: &Path, out: &mut Writer) -> Told {
    let (upper, lowers) = store.snapshot(ns, key)?.upper()?;
    let names = list(upper, lowers, path)?;
    out.raw(r#"{"names":"#);
    out.list(names, |out, name| out.text(name));
    out.raw("}");
    Ok(())
}
