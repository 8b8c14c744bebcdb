//! Operations on the upper layer of a stack, by the rules of overlayfs.rst.

use crate::layer::{Dir, FsError, Layer, Lowers, MAX_PATH_BYTES, Node, Path};
use std::borrow::Cow;

const MAX_MODE: u32 = 0o7777;
const MAX_FILE_BYTES: usize = 1 << 20;

pub enum Operation<'a> {
    Mkdir {
        path: Path<'a>,
        mode: u32,
    },
    Create {
        path: Path<'a>,
        mode: u32,
    },
    /// Gives a file these bytes in place of its own.
    Write {
        path: Path<'a>,
        bytes: Cow<'a, [u8]>,
    },
    /// Puts the bytes into the file at the offset, with zeros where it is shorter.
    WriteAt {
        path: Path<'a>,
        offset: usize,
        bytes: Cow<'a, [u8]>,
    },
    Truncate {
        path: Path<'a>,
        size: usize,
    },
    SetMode {
        path: Path<'a>,
        mode: u32,
    },
    Unlink {
        path: Path<'a>,
    },
    /// Where something is seen at `to`, this is refused.
    Rename {
        from: Path<'a>,
        to: Path<'a>,
    },
}

impl Operation<'_> {
    pub fn apply(&self, upper: &mut Layer, lowers: &Lowers) -> Result<(), FsError> {
        match self {
            Operation::Mkdir { path, mode } => mkdir(upper, lowers, path, *mode),
            Operation::Create { path, mode } => create(upper, lowers, path, *mode),
            Operation::Write { path, bytes } => write(
                upper,
                lowers,
                path,
                |_| bytes.len(),
                |old| bytes.as_ref().clone_into(old),
            ),
            Operation::WriteAt {
                path,
                offset,
                bytes,
            } => {
                let end = offset.saturating_add(bytes.len());
                write(
                    upper,
                    lowers,
                    path,
                    |old| old.max(end),
                    |old| {
                        if old.len() < end {
                            old.resize(end, 0);
                        }
                        old[*offset..end].copy_from_slice(bytes);
                    },
                )
            }
            Operation::Truncate { path, size } => {
                write(upper, lowers, path, |_| *size, |old| old.resize(*size, 0))
            }
            Operation::SetMode { path, mode } => set_mode(upper, lowers, path, *mode),
            Operation::Unlink { path } => unlink(upper, lowers, path),
            Operation::Rename { from, to } => rename(upper, lowers, from, to),
        }
    }
}

fn mkdir(upper: &mut Layer, lowers: &Lowers, path: &Path, mode: u32) -> Result<(), FsError> {
    let (name, parents) = path.split_last().ok_or(FsError::Exists)?;
    upper.at(lowers, parents, |mut place| {
        if place.seen(name).is_some() {
            return Err(FsError::Exists);
        }
        is_mode(mode)?;
        // A whiteout of the layer's own hides what is below.
        let opaque = place.own(name).is_some();
        place.put(name, Node::Dir(Dir::empty(mode, opaque)))
    })
}

fn create(upper: &mut Layer, lowers: &Lowers, path: &Path, mode: u32) -> Result<(), FsError> {
    let (name, parents) = path.split_last().ok_or(FsError::Exists)?;
    upper.at(lowers, parents, |mut place| {
        if place.seen(name).is_some() {
            return Err(FsError::Exists);
        }
        is_mode(mode)?;
        let bytes = Vec::new();
        place.put(name, Node::File { mode, bytes })
    })
}

fn is_mode(mode: u32) -> Result<(), FsError> {
    (mode <= MAX_MODE).then_some(()).ok_or(FsError::Invalid)
}

/// Changes the bytes of a file, which is copied up where the upper layer has none. `size` is how many it then has.
fn write(
    upper: &mut Layer,
    lowers: &Lowers,
    path: &Path,
    size: impl Fn(usize) -> usize,
    change: impl FnOnce(&mut Vec<u8>),
) -> Result<(), FsError> {
    let (name, parents) = path.split_last().ok_or(FsError::IsDir)?;
    let fits = |bytes: &[u8]| {
        let fits = size(bytes.len()) <= MAX_FILE_BYTES;
        fits.then_some(()).ok_or(FsError::TooBig)
    };
    upper.at(lowers, parents, |mut place| {
        if let Some(node) = place.own(name) {
            let before = node.usage();
            match node {
                Node::File { bytes, .. } => {
                    fits(bytes)?;
                    change(bytes);
                }
                Node::Dir(_) => return Err(FsError::IsDir),
                Node::Whiteout => return Err(FsError::NotFound),
            }
            let after = node.usage();
            *place.usage += after;
            *place.usage -= before;
            return Ok(());
        }
        match place.below(name).ok_or(FsError::NotFound)? {
            Node::File { mode, bytes } => {
                fits(bytes)?;
                let (mode, mut bytes) = (*mode, bytes.clone());
                change(&mut bytes);
                place.put(name, Node::File { mode, bytes })
            }
            Node::Dir(_) | Node::Whiteout => Err(FsError::IsDir),
        }
    })
}

fn set_mode(upper: &mut Layer, lowers: &Lowers, path: &Path, mode: u32) -> Result<(), FsError> {
    let (name, parents) = path.split_last().ok_or(FsError::Invalid)?;
    upper.at(lowers, parents, |mut place| {
        place.seen(name).ok_or(FsError::NotFound)?;
        is_mode(mode)?;
        match place.own(name) {
            Some(Node::Dir(dir)) => dir.mode = mode,
            Some(Node::File { mode: old, .. }) => *old = mode,
            Some(Node::Whiteout) | None => {
                let copy = match place.below(name) {
                    Some(Node::File { bytes, .. }) => {
                        let bytes = bytes.clone();
                        Node::File { mode, bytes }
                    }
                    _ => Node::Dir(Dir::empty(mode, false)),
                };
                return place.put(name, copy);
            }
        }
        Ok(())
    })
}

fn unlink(upper: &mut Layer, lowers: &Lowers, path: &Path) -> Result<(), FsError> {
    let (name, parents) = path.split_last().ok_or(FsError::IsDir)?;
    upper.at(lowers, parents, |mut place| {
        match place.seen(name) {
            Some(Node::File { .. }) => {}
            Some(_) => return Err(FsError::IsDir),
            None => return Err(FsError::NotFound),
        }
        if place.below(name).is_some() {
            return place.put(name, Node::Whiteout);
        }
        place.take(name);
        Ok(())
    })
}

fn rename(upper: &mut Layer, lowers: &Lowers, from: &Path, to: &Path) -> Result<(), FsError> {
    let (name, parents) = from.split_last().ok_or(FsError::Invalid)?;
    let (new_name, new_parents) = to.split_last().ok_or(FsError::Invalid)?;
    let target = upper.at(lowers, new_parents, |mut target| {
        Ok((target.seen(new_name).is_some(), target.has_room()))
    });
    let is_longer = to.bytes() > from.bytes();
    let moved = upper.at(lowers, parents, |mut source| {
        let (is_taken, has_room) = target?;
        let below = source.below(name);
        let is_own = source.own(name).is_some();
        let copy = match source.seen(name).ok_or(FsError::NotFound)? {
            Node::Dir(_) if to.begins(from) => return Err(FsError::Invalid),
            Node::Dir(_) if !is_own => return Err(FsError::CrossDevice),
            Node::Dir(dir) if !dir.opaque && matches!(below, Some(Node::Dir(_))) => {
                return Err(FsError::CrossDevice);
            }
            _ if is_taken => return Err(FsError::Exists),
            node if is_longer && to.bytes() + node.longest() > MAX_PATH_BYTES => {
                return Err(FsError::BadPath);
            }
            _ if !is_own && !has_room => return Err(FsError::LayerFull),
            Node::File { mode, bytes } if !is_own => Some(Node::File {
                mode: *mode,
                bytes: bytes.clone(),
            }),
            _ => None,
        };
        let moved = copy
            .or_else(|| source.take(name))
            .ok_or(FsError::NotFound)?;
        if below.is_some() {
            source.put(name, Node::Whiteout)?;
        }
        Ok(moved)
    })?;
    upper.at(lowers, new_parents, |target| target.put(new_name, moved))
}
