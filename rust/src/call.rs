//! What the calls of the library share: a version that is known, buffers, and texts that are written.

use crate::ffi::{self, CallResult, Node};
use crate::{numbers, version, Error};

/// The text that a call wrote, or what it returned instead.
pub(crate) enum Text {
    Written(String),
    Not(CallResult),
}

/// The rows of a tree from an index on, for the library to read. Each bool in them is 0 or 1.
#[derive(Clone, Copy)]
pub(crate) struct RowsIn<'a> {
    pub nodes: &'a [Node],
    pub texts: &'a [u8],
    pub index: usize,
}

impl<'a> RowsIn<'a> {
    /// The rows of the tree.
    pub(crate) fn own(self) -> &'a [Node] {
        let end = self.nodes.get(self.index).map_or(0, |root| root.end);
        self.nodes.get(self.index..end).unwrap_or(&[])
    }
}

/// What a text is written for, by which it is known how long the text can be.
#[derive(Clone, Copy)]
pub(crate) struct Extent {
    /// About as many bytes as the text has; it may have more.
    pub usual: usize,
    /// The nodes, or as many as there can be.
    pub nodes: usize,
    /// The bytes of all texts and names, or as many as there can be.
    pub texts: usize,
}

impl Extent {
    /// That of a pattern.
    pub(crate) fn of_pattern(pattern: &str) -> Extent {
        let length = pattern.len();
        Extent { usual: length, nodes: length.saturating_mul(2).saturating_add(1), texts: length.saturating_mul(6) }
    }

    /// The bytes that no text exceeds. Each reference may write the longest of the names, so they can be as many as the nodes
    /// times the texts; for all else that is written of a node, sixteen times its text and 512 bytes are enough. It is there so
    /// that no buffer is made for a size that cannot be right.
    fn most(self) -> usize {
        self.nodes.saturating_mul(self.texts.saturating_mul(16).saturating_add(512)).saturating_add(1024)
    }
}

/// Returns an error if the library has another major version, since then its structs may be laid out in another way, or is
/// older than what this crate calls.
pub(crate) fn ready() -> Result<(), Error> {
    let found = version::parts(ffi::version());
    if version::suffices(found) {
        Ok(())
    } else {
        Err(Error::Version { needed: version::NEEDED, found })
    }
}

/// Whether the library is newer than this crate, so that it may return numbers that the crate has no names for.
pub(crate) fn is_newer() -> bool {
    version::is_newer(version::parts(ffi::version()))
}

/// Makes a call with a buffer for a text, and once more with a longer one if the first is too short. There is a text if the
/// call returns this status.
pub(crate) fn written(
    extent: Extent,
    mut call: impl FnMut(&mut Vec<u8>) -> CallResult,
    status: u32,
) -> Result<Text, Error> {
    ready()?;
    let mut buffer = Vec::new();
    guessed(&mut buffer, extent.usual.saturating_mul(2).saturating_add(64));
    let mut result = call(&mut buffer);
    if result.status == numbers::STATUS_BUFFER_TOO_SHORT {
        if result.size > extent.most() {
            return Err(Error::Library("a text that is longer than any"));
        }
        reserve(&mut buffer, result.size)?;
        result = call(&mut buffer);
    }
    if result.status != status {
        return Ok(Text::Not(result));
    }
    if result.size != buffer.len() {
        return Err(Error::Library("a text that is longer than its buffer"));
    }
    // of a long comment nothing may be left
    if buffer.capacity() / 4 > buffer.len().saturating_add(256) {
        buffer.shrink_to_fit();
    }
    let text = String::from_utf8(buffer).map_err(|_| Error::Library("a text that is not UTF-8"))?;
    Ok(Text::Written(text))
}

/// Empties a buffer, and makes its capacity so many items at least. Nothing is written to it. If there is no memory for it, the
/// capacity stays.
pub(crate) fn reserve<T>(buffer: &mut Vec<T>, count: usize) -> Result<(), Error> {
    buffer.clear();
    if count > buffer.capacity() {
        let mut longer = Vec::new();
        longer.try_reserve_exact(count).map_err(|_| Error::OutOfMemory)?;
        *buffer = longer;
    }
    Ok(())
}

/// Does the same for a guess. Without memory for it the buffer is too short, and the library says how much is needed.
pub(crate) fn guessed<T>(buffer: &mut Vec<T>, count: usize) {
    let _ = reserve(buffer, count);
}

/// Makes a buffer at least this long, with initialized items; it is never made shorter.
pub(crate) fn grow<T: Clone + Default>(buffer: &mut Vec<T>, length: usize) -> Result<(), Error> {
    if length > buffer.len() {
        buffer.try_reserve_exact(length - buffer.len()).map_err(|_| Error::OutOfMemory)?;
        buffer.resize(length, T::default());
    }
    Ok(())
}
