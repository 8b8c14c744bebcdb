//! Layers of nested maps, and what a stack of them shows (overlayfs.rst).

use std::borrow::Cow;
use std::cell::Cell;
use std::collections::BTreeMap;
use std::ops::{AddAssign, SubAssign};
use std::rc::Rc;

pub const MAX_PATH_BYTES: usize = 4095;
const MAX_NAME_BYTES: usize = 255;
const MAX_INODES: u64 = 1 << 16;

/// A path: its text, which for the root is empty.
pub struct Path<'a>(Cow<'a, [u8]>);

impl<'a> Path<'a> {
    pub fn parse(text: Cow<'a, [u8]>) -> Option<Path<'a>> {
        if *text == *b"/" {
            return Some(Path(Cow::Borrowed(b"")));
        }
        let is_path = text.starts_with(b"/") && text.len() <= MAX_PATH_BYTES && !text.contains(&0);
        let is_name =
            |name: &[u8]| !matches!(name, b"" | b"." | b"..") && name.len() <= MAX_NAME_BYTES;
        (is_path && text[1..].split(is_slash).all(is_name)).then_some(Path(text))
    }

    pub fn begins(&self, front: &Path) -> bool {
        self.0
            .strip_prefix(&*front.0)
            .is_some_and(|rest| rest.is_empty() || rest.starts_with(b"/"))
    }

    pub fn text(&self) -> &[u8] {
        if self.0.is_empty() { b"/" } else { &self.0 }
    }

    /// The bytes of its text.
    pub fn bytes(&self) -> usize {
        self.0.len()
    }

    /// The last name, and those of the directories above it.
    pub fn split_last(&self) -> Option<(&[u8], Names<'_>)> {
        let slash = self.0.iter().rposition(is_slash)?;
        Some((&self.0[slash + 1..], Names(&self.0[..slash])))
    }

    pub fn names(&self) -> Names<'_> {
        Names(&self.0)
    }
}

fn is_slash(byte: &u8) -> bool {
    *byte == b'/'
}

/// The names of a path, each after a slash.
#[derive(Clone, Copy)]
pub struct Names<'a>(&'a [u8]);

impl<'a> Iterator for Names<'a> {
    type Item = &'a [u8];

    fn next(&mut self) -> Option<&'a [u8]> {
        let rest = self.0.strip_prefix(b"/")?;
        let end = rest.iter().position(is_slash).unwrap_or(rest.len());
        let (name, rest) = rest.split_at(end);
        self.0 = rest;
        Some(name)
    }
}

pub struct Dir {
    pub mode: u32,
    pub opaque: bool,
    pub entries: BTreeMap<Box<[u8]>, Node>,
}

impl Dir {
    pub fn empty(mode: u32, opaque: bool) -> Dir {
        Dir {
            mode,
            opaque,
            entries: BTreeMap::new(),
        }
    }

    fn longest(&self) -> usize {
        let below = self.entries.iter();
        let bytes = below.map(|(name, node)| 1 + name.len() + node.longest());
        bytes.max().unwrap_or(0)
    }
}

pub enum Node {
    Dir(Dir),
    File { mode: u32, bytes: Vec<u8> },
    Whiteout,
}

impl Node {
    /// The bytes that the longest path below it has more than its own.
    pub fn longest(&self) -> usize {
        match self {
            Node::Dir(dir) => dir.longest(),
            Node::File { .. } | Node::Whiteout => 0,
        }
    }

    pub fn usage(&self) -> Usage {
        let blocks = match self {
            Node::Dir(_) => 1,
            Node::File { bytes, .. } => bytes.len().div_ceil(4096) as u64,
            Node::Whiteout => 0,
        };
        Usage { blocks, inodes: 1 }
    }
}

#[derive(Clone, Copy, Default, PartialEq, Eq)]
pub struct Usage {
    pub blocks: u64,
    pub inodes: u64,
}

impl Usage {
    pub fn fits(self, limit: Usage) -> bool {
        self.blocks <= limit.blocks && self.inodes <= limit.inodes
    }
}

impl AddAssign for Usage {
    fn add_assign(&mut self, other: Usage) {
        self.blocks += other.blocks;
        self.inodes += other.inodes;
    }
}

impl SubAssign for Usage {
    fn sub_assign(&mut self, other: Usage) {
        self.blocks -= other.blocks;
        self.inodes -= other.inodes;
    }
}

/// One layer, and what it takes.
pub struct Layer {
    root: Dir,
    usage: Usage,
}

impl Layer {
    pub fn empty() -> Layer {
        Layer {
            root: Dir::empty(0o755, false),
            usage: Usage {
                blocks: 1,
                inodes: 1,
            },
        }
    }

    pub fn usage(&self) -> Usage {
        self.usage
    }

    /// Goes to the directory of these names and makes an edit there.
    pub fn at<T>(
        &mut self,
        lowers: &Lowers,
        names: Names,
        edit: impl FnOnce(Place) -> Result<T, FsError>,
    ) -> Result<T, FsError> {
        let mut lowers = each(lowers).map(|it| &it.layer.root).collect();
        descend(
            &mut self.root,
            &mut lowers,
            names,
            |dir, lowers, missing| {
                edit(Place {
                    usage: &mut self.usage,
                    dir,
                    missing,
                    lowers,
                })
            },
        )
    }
}

/// Goes from the upper layer's directory, and those below it, to those of the names. The edit gets the last one that
/// the upper layer has, and what it lacks.
fn descend<'a, T>(
    dir: &mut Dir,
    lowers: &mut Vec<&'a Dir>,
    mut names: Names<'a>,
    edit: impl FnOnce(&mut Dir, &[&'a Dir], Vec<(&'a [u8], u32)>) -> Result<T, FsError>,
) -> Result<T, FsError> {
    let all = names;
    let Some(name) = names.next() else {
        return edit(dir, lowers, Vec::new());
    };
    match dir.entries.get_mut(name) {
        Some(Node::Dir(dir)) => {
            if dir.opaque {
                lowers.clear();
            }
            // Whatever they show there, the upper layer has a directory.
            let _ = enter(lowers, name);
            return descend(dir, lowers, names, edit);
        }
        Some(Node::File { .. }) => return Err(FsError::NotDir),
        Some(Node::Whiteout) => return Err(FsError::NotFound),
        None => {}
    }
    let missing = all.map(|name| Ok((name, enter(lowers, name)?)));
    let missing = missing.collect::<Result<_, _>>()?;
    edit(dir, lowers, missing)
}

/// Where an edit takes place.
pub struct Place<'a> {
    /// What the layer takes.
    pub usage: &'a mut Usage,
    /// The layer's directory there, or the nearest one above it.
    dir: &'a mut Dir,
    /// The names and modes of the directories from there on, which the layer lacks.
    missing: Vec<(&'a [u8], u32)>,
    /// The directories of the lower layers that show through, the nearest first.
    lowers: &'a [&'a Dir],
}

impl<'a> Place<'a> {
    /// The upper layer's own node of this name.
    pub fn own(&mut self, name: &[u8]) -> Option<&mut Node> {
        if self.missing.is_empty() {
            self.dir.entries.get_mut(name)
        } else {
            None
        }
    }

    /// What the lower layers show under the name.
    pub fn below(&self, name: &[u8]) -> Option<&'a Node> {
        let mut nodes = self.lowers.iter().map(|dir| dir.entries.get(name));
        let node = nodes.find_map(|node| node)?;
        (!matches!(node, Node::Whiteout)).then_some(node)
    }

    /// What is seen under the name.
    pub fn seen(&mut self, name: &[u8]) -> Option<&Node> {
        let below = self.below(name);
        match self.own(name) {
            Some(Node::Whiteout) => None,
            Some(node) => Some(node),
            None => below,
        }
    }

    /// Whether the layer may have one more node here.
    pub fn has_room(&self) -> bool {
        self.usage.inodes + (self.missing.len() as u64) < MAX_INODES
    }

    /// Puts the node in place of what stands there, and makes the directories above it.
    pub fn put(mut self, name: &[u8], node: Node) -> Result<(), FsError> {
        if !self.has_room() && self.own(name).is_none() {
            return Err(FsError::LayerFull);
        }
        let mut dir = self.dir;
        for (name, mode) in self.missing {
            let new = Node::Dir(Dir::empty(mode, false));
            *self.usage += new.usage();
            dir = match dir.entries.entry(name.into()).or_insert(new) {
                Node::Dir(inner) => inner,
                _ => unreachable!("a directory that was missing"),
            };
        }
        *self.usage += node.usage();
        if let Some(old) = dir.entries.insert(name.into(), node) {
            *self.usage -= old.usage();
        }
        Ok(())
    }

    /// Takes the upper layer's own node.
    pub fn take(&mut self, name: &[u8]) -> Option<Node> {
        let node = self.dir.entries.remove(name)?;
        *self.usage -= node.usage();
        Some(node)
    }
}

/// Goes on to the directories of this name, in all layers at once, the nearest first. The answer is the mode that is
/// seen.
fn enter(dirs: &mut Vec<&Dir>, name: &[u8]) -> Result<u32, FsError> {
    let mut seen = Err(FsError::NotFound);
    let mut count = 0;
    for place in 0..dirs.len() {
        match dirs[place].entries.get(name) {
            Some(Node::Dir(inner)) => {
                dirs[count] = inner;
                count += 1;
                seen = seen.or(Ok(inner.mode));
                if inner.opaque {
                    break;
                }
            }
            Some(Node::File { .. }) => {
                seen = seen.or(Err(FsError::NotDir));
                break;
            }
            Some(Node::Whiteout) => break,
            None => {}
        }
    }
    dirs.truncate(count);
    seen
}

/// The directories of all layers that show through at these names, the nearest first.
fn dirs<'a>(upper: &'a Layer, lowers: &'a Lowers, names: Names) -> Result<Vec<&'a Dir>, FsError> {
    let layers = std::iter::once(upper).chain(each(lowers).map(|it| &it.layer));
    let mut dirs = layers.map(|it| &it.root).collect();
    for name in names {
        enter(&mut dirs, name)?;
    }
    Ok(dirs)
}

/// Why nothing is seen at the path.
pub fn error_at(upper: &Layer, lowers: &Lowers, path: &Path) -> FsError {
    let parents = path.split_last().map_or(Names(b""), |it| it.1);
    let missing = dirs(upper, lowers, parents).err();
    missing.unwrap_or(FsError::NotFound)
}

/// The names that the directory at the path shows, in order: of each name the nearest layer's node decides.
pub fn list<'a>(
    upper: &'a Layer,
    lowers: &'a Lowers,
    path: &Path,
) -> Result<Vec<&'a [u8]>, FsError> {
    let dirs = dirs(upper, lowers, path.names())?;
    let mut nodes: Vec<_> = dirs.iter().flat_map(|dir| &dir.entries).collect();
    // Equal names stay in the order of their layers.
    nodes.sort_by_key(|(name, _)| *name);
    nodes.dedup_by_key(|(name, _)| *name);
    nodes.retain(|(_, node)| !matches!(node, Node::Whiteout));
    Ok(nodes.into_iter().map(|(name, _)| &**name).collect())
}

#[derive(Clone, Copy, PartialEq, Eq)]
pub enum FsError {
    NotFound,
    Exists,
    NotDir,
    IsDir,
    Invalid,
    CrossDevice,
    BadPath,
    TooBig,
    LayerFull,
}

impl FsError {
    pub fn name(self) -> &'static str {
        match self {
            FsError::NotFound => "NotFound",
            FsError::Exists => "Exists",
            FsError::NotDir => "NotDir",
            FsError::IsDir => "IsDir",
            FsError::Invalid => "Invalid",
            FsError::CrossDevice => "CrossDevice",
            FsError::BadPath => "BadPath",
            FsError::TooBig => "TooBig",
            FsError::LayerFull => "LayerFull",
        }
    }
}

/// A layer over others, with the number of its snapshot.
pub struct Lower {
    pub id: u32,
    pub layer: Layer,
    pub below: Lowers,
    /// Whether a sweep leaves it. It is false but during a sweep.
    pub is_needed: Cell<bool>,
}

impl Lower {
    pub fn new(id: u32, layer: Layer, below: Lowers) -> Lower {
        Lower {
            id,
            layer,
            below,
            is_needed: Cell::new(false),
        }
    }
}

/// The layers of a stack below its upper one, the nearest first.
pub type Lowers = Option<Rc<Lower>>;

pub fn each(lowers: &Lowers) -> impl Iterator<Item = &Lower> {
    std::iter::successors(lowers.as_deref(), |it| it.below.as_deref())
}

/// What is seen at a path.
pub enum Seen {
    Dir { mode: u32 },
    File { mode: u32, size: usize },
}

/// What one layer tells of a path.
enum Found<'a> {
    Node(&'a Node),
    /// Nothing is seen there, whatever the layers below have.
    Hidden,
    /// The layers below decide.
    Absent,
}

impl Layer {
    /// What stands at the name in the directory of the others.
    fn find(&self, parents: Names, name: &[u8]) -> Found<'_> {
        let mut dir = &self.root;
        let mut is_opaque = dir.opaque;
        for parent in parents {
            dir = match dir.entries.get(parent) {
                Some(Node::Dir(inner)) => inner,
                None if !is_opaque => return Found::Absent,
                Some(Node::File { .. } | Node::Whiteout) | None => return Found::Hidden,
            };
            is_opaque |= dir.opaque;
        }
        match dir.entries.get(name) {
            None if !is_opaque => Found::Absent,
            Some(Node::Whiteout) | None => Found::Hidden,
            Some(node) => Found::Node(node),
        }
    }
}

/// What the upper layer over the lower ones shows at the path: the first layer that has something there decides.
pub fn look(upper: &Layer, lowers: &Lowers, path: &Path) -> Option<Seen> {
    let Some((name, parents)) = path.split_last() else {
        return Some(Seen::Dir {
            mode: upper.root.mode,
        });
    };
    for layer in std::iter::once(upper).chain(each(lowers).map(|it| &it.layer)) {
        match layer.find(parents, name) {
            Found::Absent => {}
            Found::Node(Node::Dir(dir)) => return Some(Seen::Dir { mode: dir.mode }),
            Found::Node(Node::File { mode, bytes }) => {
                return Some(Seen::File {
                    mode: *mode,
                    size: bytes.len(),
                });
            }
            Found::Node(Node::Whiteout) | Found::Hidden => return None,
        }
    }
    None
}
