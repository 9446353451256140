//! Which versions of libfancy the crate works with. `build.rs` reads this file too.

use crate::numbers;

/// The oldest library that the crate works with: its major and its minor number. It works with a later minor one too.
pub(crate) const NEEDED: (u32, u32) = (numbers::VERSION_MAJOR, numbers::VERSION_MINOR);

/// The major, minor and patch number of a version in the form of `FANCY_VERSION`.
pub(crate) fn parts(version: u32) -> (u32, u32, u32) {
    (version / 1_000_000, version / 1000 % 1000, version % 1000)
}

/// Whether a library of this version may have numbers that the crate has no names for.
pub(crate) fn is_newer((major, minor, _): (u32, u32, u32)) -> bool {
    (major, minor) > NEEDED
}

/// Whether the crate works with a library of this version: with another major number the structs may have another layout, and
/// an older library does not do all that the crate needs.
pub(crate) fn suffices((major, minor, _): (u32, u32, u32)) -> bool {
    major == NEEDED.0 && minor >= NEEDED.1
}
