//! The numbers of `fancy.h`. Made by `tools/bindings` from `include/fancy.toml`.
#![allow(dead_code)] // some are for other languages

pub(crate) const FLAG_CASEI: u32 = 1;
pub(crate) const FLAG_MULTI: u32 = 2;
pub(crate) const FLAG_DOTNL: u32 = 4;
pub(crate) const FLAG_SWAP_GREED: u32 = 8;
pub(crate) const FLAG_IGNORE_SPACE: u32 = 16;
pub(crate) const FLAG_UNICODE: u32 = 32;
pub(crate) const FLAG_CRLF: u32 = 64;
pub(crate) const FLAG_ONIGURUMA_MODE: u32 = 128;
pub(crate) const FLAG_IGNORE_NUMBERED_GROUPS_WHEN_NAMED_GROUPS_EXIST: u32 = 256;
pub(crate) const FLAG_WITHOUT_SPANS: u32 = 65536;

pub(crate) const STATUS_OK: u32 = 0;
pub(crate) const STATUS_REFUSED: u32 = 1;
pub(crate) const STATUS_NOT_UTF8: u32 = 2;
pub(crate) const STATUS_OUT_OF_MEMORY: u32 = 3;
pub(crate) const STATUS_BUFFER_TOO_SHORT: u32 = 4;
pub(crate) const STATUS_NOT_PRINTABLE: u32 = 5;
pub(crate) const STATUS_NO_PATTERN: u32 = 6;
pub(crate) const STATUS_NO_TREE: u32 = 7;
pub(crate) const STATUS_UNKNOWN_STYLE: u32 = 8;
pub(crate) const STATUS_UNKNOWN_FLAG: u32 = 9;
pub(crate) const STATUS_UNKNOWN_PRECEDENCE: u32 = 10;
pub(crate) const STATUS_UNRESOLVED: u32 = 11;
pub(crate) const STATUS_NOT_ONE_CHARACTER: u32 = 12;

pub(crate) const ERROR_NONE: u32 = 0;
pub(crate) const ERROR_GENERAL_PARSE_ERROR: u32 = 1;
pub(crate) const ERROR_UNCLOSED_OPEN_PAREN: u32 = 2;
pub(crate) const ERROR_INVALID_REPEAT: u32 = 3;
pub(crate) const ERROR_RECURSION_EXCEEDED: u32 = 4;
pub(crate) const ERROR_TRAILING_BACKSLASH: u32 = 5;
pub(crate) const ERROR_INVALID_ESCAPE: u32 = 6;
pub(crate) const ERROR_UNCLOSED_UNICODE_NAME: u32 = 7;
pub(crate) const ERROR_INVALID_HEX: u32 = 8;
pub(crate) const ERROR_INVALID_CODEPOINT_VALUE: u32 = 9;
pub(crate) const ERROR_INVALID_CLASS: u32 = 10;
pub(crate) const ERROR_UNKNOWN_FLAG: u32 = 11;
pub(crate) const ERROR_CHANGING_UNICODE_MODE_UNSUPPORTED: u32 = 12;
pub(crate) const ERROR_INVALID_BACKREF: u32 = 13;
pub(crate) const ERROR_TARGET_NOT_REPEATABLE: u32 = 14;
pub(crate) const ERROR_INVALID_GROUP_NAME: u32 = 15;
pub(crate) const ERROR_INVALID_GROUP_NAME_BACKREF: u32 = 16;

pub(crate) const NODE_EMPTY: u32 = 1;
pub(crate) const NODE_ANY: u32 = 2;
pub(crate) const NODE_ASSERTION: u32 = 3;
pub(crate) const NODE_GENERAL_NEWLINE: u32 = 4;
pub(crate) const NODE_LITERAL: u32 = 5;
pub(crate) const NODE_LITERAL_BYTES: u32 = 6;
pub(crate) const NODE_CONCAT: u32 = 7;
pub(crate) const NODE_ALT: u32 = 8;
pub(crate) const NODE_GROUP: u32 = 9;
pub(crate) const NODE_LOOK_AROUND: u32 = 10;
pub(crate) const NODE_REPEAT: u32 = 11;
pub(crate) const NODE_DELEGATE: u32 = 12;
pub(crate) const NODE_BACKREF: u32 = 13;
pub(crate) const NODE_BACKREF_AT_LEVEL: u32 = 14;
pub(crate) const NODE_ATOMIC_GROUP: u32 = 15;
pub(crate) const NODE_KEEP_OUT: u32 = 16;
pub(crate) const NODE_CONTINUE_FROM_PREVIOUS_MATCH_END: u32 = 17;
pub(crate) const NODE_BACKREF_EXISTS_CONDITION: u32 = 18;
pub(crate) const NODE_CONDITIONAL: u32 = 19;
pub(crate) const NODE_SUBROUTINE_CALL: u32 = 20;
pub(crate) const NODE_VERB: u32 = 21;
pub(crate) const NODE_ABSENT: u32 = 22;
pub(crate) const NODE_DEFINE_GROUP: u32 = 23;
pub(crate) const NODE_AST_NODE: u32 = 24;

pub(crate) const ASSERTION_START_TEXT: u32 = 1;
pub(crate) const ASSERTION_END_TEXT: u32 = 2;
pub(crate) const ASSERTION_END_TEXT_IGNORE_TRAILING_NEWLINES: u32 = 3;
pub(crate) const ASSERTION_START_LINE: u32 = 4;
pub(crate) const ASSERTION_START_LINE_ONIGURUMA: u32 = 5;
pub(crate) const ASSERTION_END_LINE: u32 = 6;
pub(crate) const ASSERTION_LEFT_WORD_BOUNDARY: u32 = 7;
pub(crate) const ASSERTION_LEFT_WORD_HALF_BOUNDARY: u32 = 8;
pub(crate) const ASSERTION_RIGHT_WORD_BOUNDARY: u32 = 9;
pub(crate) const ASSERTION_RIGHT_WORD_HALF_BOUNDARY: u32 = 10;
pub(crate) const ASSERTION_WORD_BOUNDARY: u32 = 11;
pub(crate) const ASSERTION_NOT_WORD_BOUNDARY: u32 = 12;

pub(crate) const LOOK_AHEAD: u32 = 1;
pub(crate) const LOOK_AHEAD_NEG: u32 = 2;
pub(crate) const LOOK_BEHIND: u32 = 3;
pub(crate) const LOOK_BEHIND_NEG: u32 = 4;

pub(crate) const VERB_FAIL: u32 = 1;
pub(crate) const VERB_ACCEPT: u32 = 2;
pub(crate) const VERB_COMMIT: u32 = 3;
pub(crate) const VERB_SKIP: u32 = 4;
pub(crate) const VERB_PRUNE: u32 = 5;

pub(crate) const ABSENT_REPEATER: u32 = 1;
pub(crate) const ABSENT_EXPRESSION: u32 = 2;
pub(crate) const ABSENT_STOPPER: u32 = 3;
pub(crate) const ABSENT_CLEAR: u32 = 4;

pub(crate) const TARGET_BY_NUMBER: u32 = 1;
pub(crate) const TARGET_BY_NAME: u32 = 2;
pub(crate) const TARGET_RELATIVE: u32 = 3;

pub(crate) const TRIVIUM_COMMENT: u32 = 1;
pub(crate) const TRIVIUM_LINE_COMMENT: u32 = 2;
pub(crate) const TRIVIUM_INLINE_FLAGS: u32 = 3;
pub(crate) const TRIVIUM_OPENING: u32 = 4;
pub(crate) const TRIVIUM_CLOSING: u32 = 5;
pub(crate) const TRIVIUM_DROPPED: u32 = 6;
pub(crate) const TRIVIUM_INNER_COMMENT: u32 = 7;
pub(crate) const TRIVIUM_INNER_LINE_COMMENT: u32 = 8;

pub(crate) const PRECEDENCE_WHOLE: u32 = 0;
pub(crate) const PRECEDENCE_BRANCH: u32 = 1;
pub(crate) const PRECEDENCE_PIECE: u32 = 2;
pub(crate) const PRECEDENCE_OPERAND: u32 = 3;

pub(crate) const STYLE_KEPT: u32 = 0;
pub(crate) const STYLE_VERBOSE: u32 = 1;
pub(crate) const STYLE_COMPACT: u32 = 2;

// the largest number of a group
pub(crate) const LAST_FLAG: u32 = 65536;
pub(crate) const LAST_STATUS: u32 = 12;
pub(crate) const LAST_ERROR: u32 = 16;
pub(crate) const LAST_NODE: u32 = 24;
pub(crate) const LAST_ASSERTION: u32 = 12;
pub(crate) const LAST_LOOK: u32 = 4;
pub(crate) const LAST_VERB: u32 = 5;
pub(crate) const LAST_ABSENT: u32 = 4;
pub(crate) const LAST_TARGET: u32 = 3;
pub(crate) const LAST_TRIVIUM: u32 = 8;
pub(crate) const LAST_PRECEDENCE: u32 = 3;
pub(crate) const LAST_STYLE: u32 = 2;

/// The letters of the flags, in the order of their bits.
pub(crate) const FLAG_LETTERS: &str = "imsUxuRon";

pub(crate) const VERSION_MAJOR: u32 = 2;
pub(crate) const VERSION_MINOR: u32 = 1;
pub(crate) const VERSION_PATCH: u32 = 0;
