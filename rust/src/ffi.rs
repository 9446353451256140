//! The calls of `fancy.h`. This is the only file of the crate with `unsafe` code. What is called are the proved functions, whose
//! names end in `_nonnull`: they take no null pointer, and neither a slice nor a vector has one.

use crate::{call::RowsIn, numbers};
pub(crate) use crate::structs::{CallResult, Info, Name, Node, NodeFacts, PatternFacts, Range, Trivium};
use core::ffi::c_char;

extern "C" {
    fn fancy_version() -> u32;
    fn fancy_message_nonnull(pattern: *const c_char, length: usize, flags: u32, buffer: *mut c_char, capacity: usize) -> CallResult;
    #[cfg(test)]
    fn fancy_error_text_nonnull(kind: u32, buffer: *mut c_char, capacity: usize) -> CallResult;
    fn fancy_tree_nonnull(pattern: *const c_char, length: usize, flags: u32, nodes: *mut Node, node_capacity: usize, texts: *mut c_char,
        texts_capacity: usize, names: *mut Name, name_capacity: usize, backrefs: *mut usize, backref_capacity: usize, info: *mut Info) -> CallResult;
    fn fancy_print_nonnull(pattern: *const c_char, length: usize, flags: u32, precedence: u32, buffer: *mut c_char, capacity: usize) -> CallResult;
    fn fancy_to_pattern_nonnull(pattern: *const c_char, length: usize, flags: u32, buffer: *mut c_char, capacity: usize) -> CallResult;
    fn fancy_format_nonnull(pattern: *const c_char, length: usize, flags: u32, style: u32, width: usize, buffer: *mut c_char, capacity: usize) -> CallResult;
    fn fancy_print_nodes_nonnull(nodes: *const Node, node_count: usize, texts: *const c_char, texts_size: usize, index: usize,
        precedence: u32, buffer: *mut c_char, capacity: usize) -> CallResult;
    fn fancy_to_pattern_nodes_nonnull(nodes: *const Node, node_count: usize, texts: *const c_char, texts_size: usize, index: usize,
        names: *const Name, name_count: usize, info: *const Info, flags: u32, buffer: *mut c_char, capacity: usize) -> CallResult;
    fn fancy_trivia_nonnull(pattern: *const c_char, length: usize, flags: u32, trivia: *mut Trivium, capacity: usize, count: *mut usize) -> CallResult;
    fn fancy_is_resolved_nonnull(pattern: *const c_char, length: usize, flags: u32) -> CallResult;
    fn fancy_escape_nonnull(text: *const c_char, length: usize, flags: u32, buffer: *mut c_char, capacity: usize) -> CallResult;
    fn fancy_class_ranges_nonnull(text: *const c_char, length: usize, flags: u32, ranges: *mut Range, capacity: usize, count: *mut usize) -> CallResult;
    fn fancy_node_ranges_nonnull(node: *const Node, texts: *const c_char, texts_size: usize, flags: u32, ranges: *mut Range, capacity: usize, count: *mut usize) -> CallResult;
    fn fancy_facts_nonnull(pattern: *const c_char, length: usize, flags: u32, nodes: *mut NodeFacts, node_capacity: usize,
        prefix: *mut c_char, prefix_capacity: usize, whole: *mut PatternFacts) -> CallResult;
    fn fancy_parse_id_nonnull(text: *const c_char, length: usize) -> CallResult;
    fn fancy_parse_decimal_nonnull(text: *const c_char, length: usize, value: *mut usize) -> CallResult;
}

// All that `docs/c.md` asks of a caller about pointers is asked of each call: none is null, each is aligned and points to as many items as the number
// beside it says, no two buffers overlap, and nobody else uses a buffer meanwhile. Slices and distinct mutable borrows have this. What is read is
// initialized. What is written need not be: mostly it is the capacity of a vector, whose length is then set, by the clause in parentheses (`docs/c.md`).

/// Makes a vector as long as what was written to it; empty if it has not the capacity for that.
unsafe fn set_written<T>(buffer: &mut Vec<T>, count: usize) {
    // SAFETY: there is capacity for so many items, and who calls this had them written
    unsafe { buffer.set_len(if count <= buffer.capacity() { count } else { 0 }) }
}

/// Lets a call write a text to a vector. With OK it has to write `size` bytes.
unsafe fn text(buffer: &mut Vec<u8>, call: impl FnOnce(*mut c_char, usize) -> CallResult) -> CallResult {
    let result = call(buffer.as_mut_ptr().cast(), buffer.capacity());
    // SAFETY: with OK the call wrote `size` bytes
    unsafe { set_written(buffer, if result.status == numbers::STATUS_OK { result.size } else { 0 }) }
    result
}

pub(crate) fn version() -> u32 {
    // SAFETY: it has no argument, and returns a constant
    unsafe { fancy_version() }
}

pub(crate) fn message(pattern: &str, flags: u32, buffer: &mut [u8]) -> CallResult {
    // SAFETY: the pattern and the buffer are slices, the second a mutable borrow
    unsafe { fancy_message_nonnull(pattern.as_ptr().cast(), pattern.len(), flags, buffer.as_mut_ptr().cast(), buffer.len()) }
}

#[cfg(test)]
pub(crate) fn error_text(kind: u32, buffer: &mut [u8]) -> CallResult {
    // SAFETY: the buffer is a slice, mutably borrowed
    unsafe { fancy_error_text_nonnull(kind, buffer.as_mut_ptr().cast(), buffer.len()) }
}

pub(crate) fn tree(pattern: &str, flags: u32, nodes: &mut Vec<Node>, texts: &mut Vec<u8>, names: &mut Vec<Name>, backrefs: &mut Vec<usize>, info: &mut Info) -> CallResult {
    // SAFETY: the pattern is a slice; the four buffers and `info` are distinct mutable borrows; the structs are laid out as those of `fancy.h`, and all
    // fields are integers; with OK a tree of the sizes in `info` is written (`read`), with REFUSED a message of `size` bytes (`refused`)
    unsafe {
        let result = fancy_tree_nonnull(pattern.as_ptr().cast(), pattern.len(), flags, nodes.as_mut_ptr(), nodes.capacity(), texts.as_mut_ptr().cast(),
            texts.capacity(), names.as_mut_ptr(), names.capacity(), backrefs.as_mut_ptr(), backrefs.capacity(), info);
        let sizes = if result.status == numbers::STATUS_OK { *info } else { Info::default() };
        set_written(nodes, sizes.node_count);
        set_written(texts, if result.status == numbers::STATUS_REFUSED { result.size } else { sizes.texts_size });
        set_written(names, sizes.name_count);
        set_written(backrefs, sizes.backref_count);
        result
    }
}

pub(crate) fn print(pattern: &str, flags: u32, precedence: u32, buffer: &mut Vec<u8>) -> CallResult {
    // SAFETY: the pattern is a slice, and the buffer a mutable borrow; with OK the text is written (`read`)
    unsafe { text(buffer, |to, capacity| fancy_print_nonnull(pattern.as_ptr().cast(), pattern.len(), flags, precedence, to, capacity)) }
}

pub(crate) fn to_pattern(pattern: &str, flags: u32, buffer: &mut Vec<u8>) -> CallResult {
    // SAFETY: the pattern is a slice, and the buffer a mutable borrow; with OK the text is written (`read`)
    unsafe { text(buffer, |to, capacity| fancy_to_pattern_nonnull(pattern.as_ptr().cast(), pattern.len(), flags, to, capacity)) }
}

pub(crate) fn format(pattern: &str, flags: u32, style: u32, width: usize, buffer: &mut Vec<u8>) -> CallResult {
    // SAFETY: the pattern is a slice, and the buffer a mutable borrow; with OK the text is written (`read`)
    unsafe { text(buffer, |to, capacity| fancy_format_nonnull(pattern.as_ptr().cast(), pattern.len(), flags, style, width, to, capacity)) }
}

pub(crate) fn trivia(pattern: &str, flags: u32, trivia: &mut Vec<Trivium>, count: &mut usize) -> CallResult {
    // SAFETY: the pattern is a slice; the buffer, of integers, and `count` are mutable borrows; with OK so many are written (`read`)
    unsafe {
        let result = fancy_trivia_nonnull(pattern.as_ptr().cast(), pattern.len(), flags, trivia.as_mut_ptr(), trivia.capacity(), count);
        set_written(trivia, if result.status == numbers::STATUS_OK { *count } else { 0 });
        result
    }
}

pub(crate) fn print_nodes(RowsIn { nodes, texts, index }: RowsIn<'_>, precedence: u32, buffer: &mut Vec<u8>) -> CallResult {
    // SAFETY: these are slices, and the buffer is a mutable borrow; with OK the text is written (`read`)
    unsafe { text(buffer, |to, capacity| fancy_print_nodes_nonnull(nodes.as_ptr(), nodes.len(), texts.as_ptr().cast(), texts.len(), index, precedence, to, capacity)) }
}

pub(crate) fn to_pattern_nodes(RowsIn { nodes, texts, index }: RowsIn<'_>, names: &[Name], info: &Info, flags: u32, buffer: &mut Vec<u8>) -> CallResult {
    // SAFETY: these and the names are slices, `info` is a borrow, and the buffer a mutable one; with OK the text is written (`read`)
    unsafe { text(buffer, |to, capacity| fancy_to_pattern_nodes_nonnull(nodes.as_ptr(), nodes.len(), texts.as_ptr().cast(), texts.len(),
        index, names.as_ptr(), names.len(), info, flags, to, capacity)) }
}

pub(crate) fn is_resolved(pattern: &str, flags: u32) -> CallResult {
    // SAFETY: the pattern is a slice
    unsafe { fancy_is_resolved_nonnull(pattern.as_ptr().cast(), pattern.len(), flags) }
}

pub(crate) fn escape(words: &str, flags: u32, buffer: &mut Vec<u8>) -> CallResult {
    // SAFETY: the words are a slice, and the buffer a mutable borrow; with OK the text is written (`read`)
    unsafe { text(buffer, |to, capacity| fancy_escape_nonnull(words.as_ptr().cast(), words.len(), flags, to, capacity)) }
}

pub(crate) fn class_ranges(text: &str, flags: u32, ranges: &mut [Range], count: &mut usize) -> CallResult {
    // SAFETY: the text and the buffer are slices, the second a mutable borrow of integers, and `count` is another
    unsafe { fancy_class_ranges_nonnull(text.as_ptr().cast(), text.len(), flags, ranges.as_mut_ptr(), ranges.len(), count) }
}

pub(crate) fn node_ranges(node: &Node, texts: &[u8], flags: u32, ranges: &mut [Range], count: &mut usize) -> CallResult {
    // SAFETY: the same, and the node is a borrow, in which each bool is 0 or 1
    unsafe { fancy_node_ranges_nonnull(node, texts.as_ptr().cast(), texts.len(), flags, ranges.as_mut_ptr(), ranges.len(), count) }
}

pub(crate) fn facts(pattern: &str, flags: u32, nodes: &mut [NodeFacts], prefix: &mut [u8], whole: &mut PatternFacts) -> CallResult {
    // SAFETY: the pattern and the buffers are slices; the buffers and `whole`, whose fields are integers, are distinct mutable borrows
    unsafe { fancy_facts_nonnull(pattern.as_ptr().cast(), pattern.len(), flags, nodes.as_mut_ptr(), nodes.len(), prefix.as_mut_ptr().cast(), prefix.len(), whole) }
}

pub(crate) fn parse_id(text: &str) -> CallResult {
    // SAFETY: the text is a slice
    unsafe { fancy_parse_id_nonnull(text.as_ptr().cast(), text.len()) }
}

pub(crate) fn parse_decimal(text: &str, value: &mut usize) -> CallResult {
    // SAFETY: the text is a slice, and `value` a mutable borrow
    unsafe { fancy_parse_decimal_nonnull(text.as_ptr().cast(), text.len(), value) }
}
