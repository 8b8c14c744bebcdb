//! A store of snapshots in maps, with a journal of the calls and their replies.

use crate::json::Writer;
use crate::layer::{Layer, Lower, Lowers, Usage, each};
use std::collections::btree_map::{BTreeMap, Entry};
use std::collections::{BTreeSet, HashMap};
use std::ops::{Bound, Deref};
use std::rc::Rc;

pub const SLOTS: u8 = 64;
const MAX_ANCESTORS: usize = 64;
const MAX_KEY_BYTES: usize = 1024;
const MAX_LABELS: usize = 64;
const MAX_LABEL_BYTES: usize = 4096;
const MAX_LIMIT: u64 = 1 << 40;
const MAX_ENTRIES: usize = 1 << 20;
const PAGE: usize = 64;

const ROOT: Usage = Usage {
    blocks: 1,
    inodes: 1,
};

type Key = Rc<[u8]>;
type Labels = Box<[(Box<[u8]>, Box<[u8]>)]>;

#[derive(Clone, Copy)]
enum Kind {
    Active,
    Committed,
}

/// What `stat` tells. Entries of the journal share it until it changes.
#[derive(Clone)]
pub struct Info {
    id: u32,
    kind: Kind,
    name: Key,
    parent: Option<Key>,
    created: u64,
    updated: u64,
    /// By key.
    labels: Labels,
}

impl Info {
    fn parent(&self) -> &[u8] {
        self.parent.as_deref().unwrap_or_default()
    }
}

pub struct Snapshot {
    info: Rc<Info>,
    /// What the namespace is charged for it.
    pub charge: Usage,
    /// Of an active snapshot.
    slot: Option<u8>,
    /// How many leases have its name.
    leases: u32,
    /// Its layer and those below. Those of the snapshots on it share it, and nothing else does.
    stack: Rc<Lower>,
}

impl Snapshot {
    /// The layer, which is changed, and those below.
    pub fn upper(&mut self) -> Result<(&mut Layer, &Lowers), Refused> {
        self.slot.ok_or(Refused::NotActive)?;
        let stack = Rc::get_mut(&mut self.stack).expect("no snapshot is on an active one");
        Ok((&mut stack.layer, &stack.below))
    }

    fn children(&self) -> u64 {
        Rc::strong_count(&self.stack) as u64 - 1
    }
}

struct Namespace {
    name: Box<[u8]>,
    charges: Charges,
    snapshots: BTreeMap<Key, Snapshot>,
    /// The names that each lease has. No lease ends by time.
    leases: HashMap<Box<[u8]>, BTreeSet<Key>>,
}

/// What a namespace is charged in all, and at most.
struct Charges {
    total: Usage,
    limit: Usage,
}

impl Charges {
    /// Charges the one amount in place of the other.
    fn charge(&mut self, old: Usage, new: Usage) -> Result<(), Refused> {
        let mut total = self.total;
        total -= old;
        total += new;
        if !total.fits(self.limit) {
            return Err(Refused::OverLimit);
        }
        self.total = total;
        Ok(())
    }
}

/// A call, whose texts are of the type. The key or the lease comes first.
pub enum Call<T> {
    Session,
    Prepare(T, T),
    Commit(T, T),
    Remove(T),
    Stat(T),
    Walk(T),
    Charge(T, Usage),
    Usage(T),
    Update(T, Box<[(T, T)]>),
    Limit(Usage),
    LeaseCreate(T),
    LeaseAdd(T, T),
    LeaseRelease(T),
    Sweep,
}

impl<T> Call<T> {
    /// The call with other texts.
    fn map<U>(self, mut to: impl FnMut(T) -> U) -> Call<U> {
        match self {
            Call::Session => Call::Session,
            Call::Prepare(key, parent) => Call::Prepare(to(key), to(parent)),
            Call::Commit(key, name) => Call::Commit(to(key), to(name)),
            Call::Remove(key) => Call::Remove(to(key)),
            Call::Stat(key) => Call::Stat(to(key)),
            Call::Walk(after) => Call::Walk(to(after)),
            Call::Charge(key, need) => Call::Charge(to(key), need),
            Call::Usage(key) => Call::Usage(to(key)),
            Call::Update(key, labels) => {
                let key = to(key);
                let labels = labels
                    .into_iter()
                    .map(|(label, value)| (to(label), to(value)));
                Call::Update(key, labels.collect())
            }
            Call::Limit(limit) => Call::Limit(limit),
            Call::LeaseCreate(lease) => Call::LeaseCreate(to(lease)),
            Call::LeaseAdd(lease, name) => Call::LeaseAdd(to(lease), to(name)),
            Call::LeaseRelease(lease) => Call::LeaseRelease(to(lease)),
            Call::Sweep => Call::Sweep,
        }
    }
}

impl<T: Deref<Target = [u8]>> Call<T> {
    /// Whether its texts and numbers are within their limits. A commit's are tested later.
    fn has_form(&self) -> bool {
        match self {
            Call::Session | Call::Commit(..) | Call::Charge(..) | Call::Sweep => true,
            Call::Prepare(key, parent) => is_key(key) && (parent.is_empty() || is_key(parent)),
            Call::Remove(key) | Call::Stat(key) | Call::Usage(key) => is_key(key),
            Call::LeaseCreate(lease) | Call::LeaseRelease(lease) => is_key(lease),
            Call::LeaseAdd(lease, name) => is_key(lease) && is_key(name),
            Call::Walk(after) => after.len() <= MAX_KEY_BYTES,
            Call::Limit(limit) => limit.blocks <= MAX_LIMIT && limit.inodes <= MAX_LIMIT,
            Call::Update(key, labels) => {
                let fits = |(label, value): &(T, T)| label.len() + value.len() <= MAX_LABEL_BYTES;
                let is_label = |it: &(T, T)| !it.0.is_empty() && fits(it);
                is_key(key) && labels.len() <= MAX_LABELS && labels.iter().all(is_label)
            }
        }
    }

    /// Whether a refusal for want of what it is on leaves no entry.
    fn is_on_active(&self) -> bool {
        matches!(self, Call::Commit(..) | Call::Charge(..))
    }
}

fn is_key(text: &[u8]) -> bool {
    (1..=MAX_KEY_BYTES).contains(&text.len()) && !text.contains(&0)
}

pub enum Reply {
    Done,
    Prepared {
        chain: Box<[u32]>,
        id: u32,
        slot: u8,
    },
    Committed {
        id: u32,
        usage: Usage,
    },
    Freed(Usage),
    Info(Rc<Info>),
    Infos(Box<[Rc<Info>]>),
    Usage(Usage),
    Share(Usage),
    Swept(Box<(Usage, Vec<Key>)>),
}

#[derive(Clone, Copy, Debug, PartialEq, Eq)]
pub enum Refused {
    AlreadyExists,
    BadArgument,
    BelowCharge,
    HasChildren,
    InUse,
    JournalFull,
    LeaseExists,
    Leased,
    NoLease,
    NoNamespace,
    NotActive,
    NotCommitted,
    NotFound,
    OverLimit,
    TooDeep,
    TooManyActives,
}

/// An entry of the journal. Its texts are the namespace's name and the call's, of these lengths.
#[expect(dead_code, reason = "an entry is kept, and no line asks for it")]
struct Noted {
    texts: usize,
    ns: u32,
    call: Call<u32>,
    reply: Result<Reply, Refused>,
}

/// The entries of a round.
struct Journal {
    /// The texts of all, one after the other.
    texts: Vec<u8>,
    entries: Vec<Noted>,
    /// The number of the last entry of all rounds.
    number: u64,
}

impl Journal {
    fn note<T: Deref<Target = [u8]>>(
        &mut self,
        ns: &[u8],
        call: Call<T>,
        reply: Result<Reply, Refused>,
    ) -> Result<&Reply, Refused> {
        self.number += 1;
        let start = self.texts.len();
        self.texts.extend_from_slice(ns);
        let call = call.map(|text| {
            self.texts.extend_from_slice(&text);
            text.len() as u32
        });
        self.entries.push(Noted {
            texts: start,
            ns: ns.len() as u32,
            call,
            reply,
        });
        let last = self.entries.last().expect("an entry");
        last.reply.as_ref().map_err(|refused| *refused)
    }
}

pub struct Store {
    /// By name.
    namespaces: Vec<Namespace>,
    journal: Journal,
    last_id: u32,
    /// A bit for each slot.
    free_slots: u64,
    /// How many are taken.
    actives: usize,
}

impl Store {
    pub fn open(limits: BTreeMap<Box<[u8]>, Usage>) -> Store {
        let namespaces = limits
            .into_iter()
            .map(|(name, limit)| Namespace::empty(name, limit));
        let journal = Journal {
            texts: Vec::new(),
            entries: Vec::new(),
            number: 0,
        };
        let mut store = Store {
            namespaces: namespaces.collect(),
            journal,
            last_id: 0,
            free_slots: u64::MAX >> (u64::BITS - u32::from(SLOTS)),
            actives: 0,
        };
        store.reopen();
        store
    }

    /// Begins the next round, unless a snapshot is active.
    pub fn reopen(&mut self) -> bool {
        if self.actives > 0 {
            return false;
        }
        self.journal.texts = Vec::new();
        self.journal.entries = Vec::new();
        let done = Ok(Reply::Done);
        self.journal.note::<&[u8]>(b"", Call::Session, done).is_ok()
    }

    fn place(&self, ns: &[u8]) -> Result<usize, Refused> {
        let found = self.namespaces.binary_search_by(|it| (*it.name).cmp(ns));
        found.map_err(|_| Refused::NoNamespace)
    }

    pub fn snapshot(&mut self, ns: &[u8], key: &[u8]) -> Result<&mut Snapshot, Refused> {
        let place = self.place(ns)?;
        self.namespaces[place].find_mut(key)
    }

    /// What the namespace's limit leaves.
    pub fn free(&self, ns: &[u8]) -> Result<Usage, Refused> {
        let namespace = &self.namespaces[self.place(ns)?];
        let mut free = namespace.charges.limit;
        free -= namespace.charges.total;
        Ok(free)
    }

    /// Makes the call and notes it.
    pub fn call<T>(&mut self, ns: &[u8], call: Call<T>) -> Result<&Reply, Refused>
    where
        T: Deref<Target = [u8]>,
    {
        // An entry is kept for the end of each active snapshot.
        let needs = match call {
            Call::Prepare(..) => self.actives + 2,
            Call::Commit(..) => 1,
            _ => self.actives + 1,
        };
        if MAX_ENTRIES - self.journal.entries.len() < needs {
            return Err(Refused::JournalFull);
        }
        use Refused::{NoNamespace, NotActive, NotFound};
        match self.reply(ns, &call) {
            Err(refused @ (NoNamespace | NotFound | NotActive)) if call.is_on_active() => {
                Err(refused)
            }
            reply => self.journal.note(ns, call, reply),
        }
    }

    fn reply<T>(&mut self, ns: &[u8], call: &Call<T>) -> Result<Reply, Refused>
    where
        T: Deref<Target = [u8]>,
    {
        call.has_form().then_some(()).ok_or(Refused::BadArgument)?;
        let place = self.place(ns)?;
        let slot = self.free_slots.trailing_zeros() as u8;
        let mut new = New {
            id: self.last_id + 1,
            slot: (slot < SLOTS).then_some(slot),
            number: self.journal.number + 1,
        };
        let reply = self.namespaces[place].call(call, &mut new)?;
        match reply {
            Reply::Prepared { id, slot, .. } => {
                self.last_id = id;
                self.free_slots &= !(1 << slot);
                self.actives += 1;
            }
            Reply::Committed { .. } => {
                self.free_slots |= new.slot.map_or(0, |slot| 1 << slot);
                self.actives -= 1;
            }
            _ => {}
        }
        Ok(reply)
    }

    pub fn tree(&self, ns: &[u8], out: &mut Writer) -> Result<(), Refused> {
        let namespace = &self.namespaces[self.place(ns)?];
        out.raw(r#"{"tree":"#);
        out.list(namespace.snapshots.values(), Writer::branch);
        out.raw("}");
        Ok(())
    }

    pub fn report(&self, out: &mut Writer) {
        let records: usize = self.namespaces.iter().map(|it| it.snapshots.len()).sum();
        out.raw(r#"{"entries":"#);
        out.number(self.journal.entries.len() as u64);
        out.raw(r#","open":"#);
        out.number(self.actives as u64);
        out.raw(r#","records":"#);
        out.number(records as u64);
        out.raw(r#","totals":"#);
        out.members(
            self.namespaces
                .iter()
                .map(|it| (&*it.name, it.charges.total)),
            Writer::usage,
        );
        out.raw("}");
    }
}

/// What a call may use: the number of its entry, and for a new snapshot an id and a slot. A commit leaves here the
/// slot that it frees.
struct New {
    id: u32,
    slot: Option<u8>,
    number: u64,
}

impl Namespace {
    fn empty(name: Box<[u8]>, limit: Usage) -> Namespace {
        Namespace {
            name,
            charges: Charges {
                total: Usage::default(),
                limit,
            },
            snapshots: BTreeMap::new(),
            leases: HashMap::new(),
        }
    }

    fn find(&self, key: &[u8]) -> Result<&Snapshot, Refused> {
        self.snapshots.get(key).ok_or(Refused::NotFound)
    }

    fn find_mut(&mut self, key: &[u8]) -> Result<&mut Snapshot, Refused> {
        self.snapshots.get_mut(key).ok_or(Refused::NotFound)
    }

    fn call<T>(&mut self, call: &Call<T>, new: &mut New) -> Result<Reply, Refused>
    where
        T: Deref<Target = [u8]>,
    {
        match call {
            Call::Session => Ok(Reply::Done),
            Call::Prepare(key, parent) => self.prepare(key, parent, new),
            Call::Commit(key, name) => self.commit(key, name, new),
            Call::Remove(key) => self.remove(key),
            Call::Stat(key) => Ok(Reply::Info(Rc::clone(&self.find(key)?.info))),
            Call::Walk(after) => Ok(Reply::Infos(self.page(after))),
            Call::Charge(key, need) => self.charge_at_least(key, *need),
            Call::Usage(key) => Ok(Reply::Usage(self.find(key)?.charge)),
            Call::Update(key, labels) => self.update(key, labels, new.number),
            Call::Limit(limit) => self.set_limit(*limit),
            Call::LeaseCreate(lease) => self.lease_create(lease),
            Call::LeaseAdd(lease, name) => self.lease_add(lease, name),
            Call::LeaseRelease(lease) => self.lease_release(lease),
            Call::Sweep => Ok(self.sweep()),
        }
    }

    fn prepare(&mut self, key: &[u8], parent: &[u8], new: &New) -> Result<Reply, Refused> {
        let parent = match parent {
            b"" => None,
            _ => Some(self.find(parent)?),
        };
        let below = parent.map(|it| Rc::clone(&it.stack));
        let is_on_active = parent.is_some_and(|it| it.slot.is_some());
        let parent = parent.map(|it| Rc::clone(&it.info.name));
        let name = Key::from(key);
        let Entry::Vacant(place) = self.snapshots.entry(Rc::clone(&name)) else {
            return Err(Refused::AlreadyExists);
        };
        if is_on_active {
            return Err(Refused::NotCommitted);
        }
        let mut chain = Vec::with_capacity(each(&below).count());
        chain.extend(each(&below).map(|it| it.id));
        if chain.len() > MAX_ANCESTORS {
            return Err(Refused::TooDeep);
        }
        let slot = new.slot.ok_or(Refused::TooManyActives)?;
        self.charges.charge(Usage::default(), ROOT)?;
        let info = Info {
            id: new.id,
            kind: Kind::Active,
            name,
            parent,
            created: new.number,
            updated: new.number,
            labels: Box::default(),
        };
        place.insert(Snapshot {
            info: Rc::new(info),
            charge: ROOT,
            slot: Some(slot),
            leases: 0,
            stack: Rc::new(Lower::new(new.id, Layer::empty(), below)),
        });
        Ok(Reply::Prepared {
            chain: chain.into(),
            id: new.id,
            slot,
        })
    }

    fn commit(&mut self, key: &[u8], name: &[u8], new: &mut New) -> Result<Reply, Refused> {
        let slot = self.find(key)?.slot.ok_or(Refused::NotActive)?;
        is_key(name).then_some(()).ok_or(Refused::BadArgument)?;
        if self.snapshots.contains_key(name) {
            return Err(Refused::AlreadyExists);
        }
        let mut snapshot = self.snapshots.remove(key).ok_or(Refused::NotFound)?;
        let (id, usage) = (snapshot.stack.id, snapshot.stack.layer.usage());
        self.charges.total -= snapshot.charge;
        self.charges.total += usage;
        snapshot.charge = usage;
        snapshot.slot = None;
        let name = Key::from(name);
        let info = Rc::make_mut(&mut snapshot.info);
        info.kind = Kind::Committed;
        info.name = Rc::clone(&name);
        info.created = new.number;
        info.updated = new.number;
        self.snapshots.insert(name, snapshot);
        new.slot = Some(slot);
        Ok(Reply::Committed { id, usage })
    }

    fn remove(&mut self, key: &[u8]) -> Result<Reply, Refused> {
        let snapshot = self.find(key)?;
        if snapshot.children() > 0 {
            return Err(Refused::HasChildren);
        }
        if snapshot.slot.is_some() {
            return Err(Refused::InUse);
        }
        if snapshot.leases > 0 {
            return Err(Refused::Leased);
        }
        let freed = snapshot.charge;
        self.snapshots.remove(key);
        self.charges.total -= freed;
        Ok(Reply::Freed(freed))
    }

    fn page(&self, after: &[u8]) -> Box<[Rc<Info>]> {
        let bounds = (Bound::Excluded(after), Bound::Unbounded);
        let page = self.snapshots.range::<[u8], _>(bounds).take(PAGE);
        page.map(|(_, it)| Rc::clone(&it.info)).collect()
    }

    /// Gives it these labels in place of its own.
    fn update<T>(&mut self, key: &[u8], labels: &[(T, T)], number: u64) -> Result<Reply, Refused>
    where
        T: Deref<Target = [u8]>,
    {
        let snapshot = self.find_mut(key)?;
        let old = &snapshot.info;
        let labels = labels.iter();
        snapshot.info = Rc::new(Info {
            name: Rc::clone(&old.name),
            parent: old.parent.clone(),
            updated: number,
            labels: labels
                .map(|(label, value)| ((**label).into(), (**value).into()))
                .collect(),
            ..**old
        });
        Ok(Reply::Info(Rc::clone(&snapshot.info)))
    }

    fn set_limit(&mut self, limit: Usage) -> Result<Reply, Refused> {
        if !self.charges.total.fits(limit) {
            return Err(Refused::BelowCharge);
        }
        self.charges.limit = limit;
        Ok(Reply::Done)
    }

    fn lease_create(&mut self, lease: &[u8]) -> Result<Reply, Refused> {
        if self.leases.contains_key(lease) {
            return Err(Refused::LeaseExists);
        }
        self.leases.insert(lease.into(), BTreeSet::new());
        Ok(Reply::Done)
    }

    fn lease_add(&mut self, lease: &[u8], name: &[u8]) -> Result<Reply, Refused> {
        let snapshot = self.snapshots.get_mut(name).ok_or(Refused::NotFound)?;
        if snapshot.slot.is_some() {
            return Err(Refused::NotCommitted);
        }
        let names = self.leases.get_mut(lease).ok_or(Refused::NoLease)?;
        snapshot.leases += u32::from(names.insert(Rc::clone(&snapshot.info.name)));
        Ok(Reply::Done)
    }

    fn lease_release(&mut self, lease: &[u8]) -> Result<Reply, Refused> {
        for name in self.leases.remove(lease).ok_or(Refused::NoLease)? {
            self.find_mut(&name)?.leases -= 1;
        }
        Ok(Reply::Done)
    }

    /// Removes the committed snapshots that no lease and no active snapshot needs.
    fn sweep(&mut self) -> Reply {
        let is_used = |it: &&Snapshot| it.slot.is_some() || it.leases > 0;
        let used = self.snapshots.values().filter(is_used);
        used.for_each(|it| mark(&it.stack));
        let (mut removed, mut freed) = (Vec::new(), Usage::default());
        self.snapshots.retain(|key, snapshot| {
            let is_needed = snapshot.stack.is_needed.take();
            if !is_needed {
                removed.push(Rc::clone(key));
                freed += snapshot.charge;
            }
            is_needed
        });
        self.charges.total -= freed;
        Reply::Swept(Box::new((freed, removed)))
    }

    fn charge_at_least(&mut self, key: &[u8], need: Usage) -> Result<Reply, Refused> {
        let snapshot = self.find(key)?;
        snapshot.slot.ok_or(Refused::NotActive)?;
        let old = snapshot.charge;
        let new = Usage {
            blocks: old.blocks.max(need.blocks),
            inodes: old.inodes.max(need.inodes),
        };
        if new != old {
            self.charges.charge(old, new)?;
            self.find_mut(key)?.charge = new;
        }
        Ok(Reply::Share(new))
    }
}

/// Marks the layer and those below as needed.
fn mark(stack: &Lower) {
    let mut next = Some(stack);
    while let Some(stack) = next.filter(|it| !it.is_needed.replace(true)) {
        next = stack.below.as_deref();
    }
}

impl Writer {
    pub fn usage(&mut self, usage: Usage) {
        self.raw("[");
        self.number(usage.blocks);
        self.raw(",");
        self.number(usage.inodes);
        self.raw("]");
    }

    fn kind(&mut self, kind: Kind) {
        self.raw(match kind {
            Kind::Active => r#","kind":"Active""#,
            Kind::Committed => r#","kind":"Committed""#,
        });
    }

    /// A snapshot as `stat` and `walk` answer it.
    fn info(&mut self, info: &Info) {
        self.raw(r#"{"created":"#);
        self.number(info.created);
        self.raw(r#","id":"#);
        self.number(info.id);
        self.kind(info.kind);
        self.raw(r#","labels":"#);
        self.members(
            info.labels.iter().map(|(label, value)| (&**label, value)),
            |out, value| out.text(value),
        );
        self.raw(r#","name":"#);
        self.text(&info.name);
        self.raw(r#","parent":"#);
        self.text(info.parent());
        self.raw(r#","updated":"#);
        self.number(info.updated);
        self.raw("}");
    }

    /// A snapshot as `tree` answers it.
    fn branch(&mut self, snapshot: &Snapshot) {
        self.raw(r#"{"children":"#);
        self.number(snapshot.children());
        self.raw(r#","id":"#);
        self.number(snapshot.info.id);
        self.raw(r#","key":"#);
        self.text(&snapshot.info.name);
        self.kind(snapshot.info.kind);
        self.raw(r#","parent":"#);
        self.text(snapshot.info.parent());
        self.named(r#","usage":"#, snapshot.charge);
    }

    /// A usage as the last member of an object.
    fn named(&mut self, name: &str, usage: Usage) {
        self.raw(name);
        self.usage(usage);
        self.raw("}");
    }

    pub fn reply(&mut self, reply: &Reply) {
        match reply {
            Reply::Done => self.raw(r#"{"ok":true}"#),
            Reply::Prepared { chain, id, slot } => {
                self.raw(r#"{"chain":"#);
                self.list(chain, |out, id| out.number(*id));
                self.raw(r#","id":"#);
                self.number(*id);
                self.raw(r#","slot":"#);
                self.number(*slot);
                self.raw("}");
            }
            Reply::Committed { id, usage } => {
                self.raw(r#"{"id":"#);
                self.number(*id);
                self.named(r#","usage":"#, *usage);
            }
            Reply::Freed(usage) => self.named(r#"{"freed":"#, *usage),
            Reply::Usage(usage) => self.named(r#"{"usage":"#, *usage),
            Reply::Share(usage) => self.named(r#"{"share":"#, *usage),
            Reply::Info(info) => {
                self.raw(r#"{"info":"#);
                self.info(info);
                self.raw("}");
            }
            Reply::Infos(infos) => {
                self.raw(r#"{"infos":"#);
                self.list(infos, |out, info| out.info(info));
                self.raw("}");
            }
            Reply::Swept(swept) => {
                self.raw(r#"{"freed":"#);
                self.usage(swept.0);
                self.raw(r#","leases":0,"removed":"#);
                self.list(&swept.1, |out, name| out.text(name));
                self.raw("}");
            }
        }
    }
}
