//! The structs of `fancy.h`, laid out as they are there. Made by `tools/bindings` from `include/fancy.toml`.
//!
//! A bool of C is a `u8`, so that each byte is a valid one, whatever the library writes.

/// `fancy_result`
#[repr(C)]
#[derive(Debug, Clone, Copy)]
pub(crate) struct CallResult {
    pub status: u32,
    pub kind: u32,
    pub position: usize,
    pub size: usize,
}

/// `fancy_node`
#[repr(C)]
#[derive(Debug, Clone, Copy, Default)]
pub(crate) struct Node {
    pub kind: u32,
    pub which: u32,
    pub end: usize,
    pub text: usize,
    pub text_size: usize,
    pub lo: usize,
    pub hi: usize,
    pub group: usize,
    pub level: isize,
    pub position: usize,
    pub start: usize,
    pub stop: usize,
    pub newline: u8,
    pub crlf: u8,
    pub unicode: u8,
    pub casei: u8,
    pub greedy: u8,
    pub has_level: u8,
}

/// `fancy_name`
#[repr(C)]
#[derive(Debug, Clone, Copy, Default)]
pub(crate) struct Name {
    pub text: usize,
    pub text_size: usize,
    pub group: usize,
}

/// `fancy_info`
#[repr(C)]
#[derive(Debug, Clone, Copy, Default)]
pub(crate) struct Info {
    pub node_count: usize,
    pub texts_size: usize,
    pub name_count: usize,
    pub backref_count: usize,
    pub total_groups: usize,
    pub out_of_range_backref: usize,
    pub has_out_of_range_backref: u8,
    pub numeric_capture_group_references: u8,
    pub contains_subroutines: u8,
    pub self_recursive: u8,
    pub numbered_groups_ignored: u8,
}

/// `fancy_trivium`
#[repr(C)]
#[derive(Debug, Clone, Copy, Default)]
pub(crate) struct Trivium {
    pub start: usize,
    pub stop: usize,
    pub kind: u32,
    pub flags_before: u32,
    pub flags_after: u32,
}

/// `fancy_range`
#[repr(C)]
#[derive(Debug, Clone, Copy, Default)]
pub(crate) struct Range {
    pub first: u32,
    pub last: u32,
}

/// `fancy_node_facts`
#[repr(C)]
#[derive(Debug, Clone, Copy, Default)]
pub(crate) struct NodeFacts {
    pub min_length: usize,
    pub max_length: usize,
    pub min_bytes: usize,
    pub max_bytes: usize,
    pub is_known: u8,
    pub can_be_empty: u8,
    pub is_constant_length: u8,
    pub is_anchored_at_start: u8,
    pub is_anchored_at_end: u8,
}

/// `fancy_pattern_facts`
#[repr(C)]
#[derive(Debug, Clone, Copy, Default)]
pub(crate) struct PatternFacts {
    pub node_count: usize,
    pub prefix_size: usize,
    pub has_prefix: u8,
    pub is_prefix_whole: u8,
    pub is_easy: u8,
}
