//! Kinds of errors, assertions and the like, with their numbers. Made by `tools/bindings` from `include/fancy.toml`.

use crate::numbers;

/// What is wrong with a pattern, under the names of fancy-regex. `Display` writes the message, without the position. A later
/// version of the crate may have more kinds.
#[derive(Debug, Clone, PartialEq, Eq)]
#[non_exhaustive]
pub enum ParseError {
    /// Something else than what the other kinds say: `a)`. With the rest of the message.
    GeneralParseError(String),
    /// A group is not closed: `(a`.
    UnclosedOpenParen,
    /// It is never returned: braces that are not a quantifier are literals.
    InvalidRepeat,
    /// Groups nest 64 deep, or too many quantifiers follow one another in Oniguruma mode.
    RecursionExceeded,
    /// A backslash at the end: `a\`.
    TrailingBackslash,
    /// An escape that does not exist: `\q`. With the escape.
    InvalidEscape(String),
    /// A property that is not closed: `\p{L`.
    UnclosedUnicodeName,
    /// No digits where an escape needs them: `\xg`.
    InvalidHex,
    /// A number that no character has: `\u{D800}`.
    InvalidCodepointValue,
    /// A class that is not closed, or that cannot be read: `[a`.
    InvalidClass,
    /// A flag that does not exist: `(?q)`. With the text from `(?` through the flag.
    UnknownFlag(String),
    /// `(?u)` without [`Flags::UNICODE`](crate::Flags::UNICODE), or `(?-u)` with it.
    ChangingUnicodeModeUnsupported,
    /// A reference to a group that does not exist: `\k<n>`.
    InvalidBackref,
    /// A quantifier without an operand, or after something that cannot be repeated: `a**`.
    TargetNotRepeatable,
    /// The name of a group cannot be read: `(?<a`.
    InvalidGroupName,
    /// A reference to a name whose group opens after it: `\k<n>(?<n>a)`. With the name.
    InvalidGroupNameBackref(String),
    /// A kind that this crate has no name for, of a library that is newer: its number and its whole message.
    Unknown(u32, String),
}

impl ParseError {
    /// The kind with a number, without the text that depends on the pattern.
    pub(crate) fn numbered(number: u32) -> Option<ParseError> {
        Some(match number {
            numbers::ERROR_GENERAL_PARSE_ERROR => ParseError::GeneralParseError(String::new()),
            numbers::ERROR_UNCLOSED_OPEN_PAREN => ParseError::UnclosedOpenParen,
            numbers::ERROR_INVALID_REPEAT => ParseError::InvalidRepeat,
            numbers::ERROR_RECURSION_EXCEEDED => ParseError::RecursionExceeded,
            numbers::ERROR_TRAILING_BACKSLASH => ParseError::TrailingBackslash,
            numbers::ERROR_INVALID_ESCAPE => ParseError::InvalidEscape(String::new()),
            numbers::ERROR_UNCLOSED_UNICODE_NAME => ParseError::UnclosedUnicodeName,
            numbers::ERROR_INVALID_HEX => ParseError::InvalidHex,
            numbers::ERROR_INVALID_CODEPOINT_VALUE => ParseError::InvalidCodepointValue,
            numbers::ERROR_INVALID_CLASS => ParseError::InvalidClass,
            numbers::ERROR_UNKNOWN_FLAG => ParseError::UnknownFlag(String::new()),
            numbers::ERROR_CHANGING_UNICODE_MODE_UNSUPPORTED => ParseError::ChangingUnicodeModeUnsupported,
            numbers::ERROR_INVALID_BACKREF => ParseError::InvalidBackref,
            numbers::ERROR_TARGET_NOT_REPEATABLE => ParseError::TargetNotRepeatable,
            numbers::ERROR_INVALID_GROUP_NAME => ParseError::InvalidGroupName,
            numbers::ERROR_INVALID_GROUP_NAME_BACKREF => ParseError::InvalidGroupNameBackref(String::new()),
            _ => return None,
        })
    }

    /// The message up to the text that depends on the pattern.
    pub(crate) fn words(&self) -> &'static str {
        match self {
            ParseError::GeneralParseError(_) => "General parsing error: ",
            ParseError::UnclosedOpenParen => "Opening parenthesis without closing parenthesis",
            ParseError::InvalidRepeat => "Invalid repeat syntax",
            ParseError::RecursionExceeded => "Pattern too deeply nested",
            ParseError::TrailingBackslash => "Backslash without following character",
            ParseError::InvalidEscape(_) => "Invalid escape: ",
            ParseError::UnclosedUnicodeName => "Unicode escape not closed",
            ParseError::InvalidHex => "Invalid hex escape",
            ParseError::InvalidCodepointValue => "Invalid codepoint for hex or unicode escape",
            ParseError::InvalidClass => "Invalid character class",
            ParseError::UnknownFlag(_) => "Unknown group flag: ",
            ParseError::ChangingUnicodeModeUnsupported => "Changing Unicode mode inline is not supported",
            ParseError::InvalidBackref => "Invalid back reference",
            ParseError::TargetNotRepeatable => "Target of repeat operator is invalid",
            ParseError::InvalidGroupName => "Could not parse group name",
            ParseError::InvalidGroupNameBackref(_) => "Invalid group name in back reference: ",
            ParseError::Unknown(..) => "",
        }
    }

    pub(crate) fn carried(&self) -> Option<&String> {
        match self {
            ParseError::GeneralParseError(text)
            | ParseError::InvalidEscape(text)
            | ParseError::UnknownFlag(text)
            | ParseError::InvalidGroupNameBackref(text)
            | ParseError::Unknown(_, text) => Some(text),
            _ => None,
        }
    }

    pub(crate) fn carried_mut(&mut self) -> Option<&mut String> {
        match self {
            ParseError::GeneralParseError(text)
            | ParseError::InvalidEscape(text)
            | ParseError::UnknownFlag(text)
            | ParseError::InvalidGroupNameBackref(text)
            | ParseError::Unknown(_, text) => Some(text),
            _ => None,
        }
    }
}

/// Which assertion an [`Assertion`](crate::Expr::Assertion) is.
#[derive(Debug, Clone, Copy, PartialEq, Eq)]
#[non_exhaustive]
pub enum Assertion {
    /// `\A`, or `^` without [`Flags::MULTI`](crate::Flags::MULTI).
    StartText,
    /// `\z`, or `$` without [`Flags::MULTI`](crate::Flags::MULTI).
    EndText,
    /// `\Z`
    EndTextIgnoreTrailingNewlines {
        /// CR is a line terminator too, and CR LF a single one.
        crlf: bool,
    },
    /// `^` with [`Flags::MULTI`](crate::Flags::MULTI).
    StartLine {
        /// CR is a line terminator too, and CR LF a single one.
        crlf: bool,
    },
    /// `^` with [`Flags::MULTI`](crate::Flags::MULTI) in Oniguruma mode.
    StartLineOniguruma {
        /// CR is a line terminator too, and CR LF a single one.
        crlf: bool,
    },
    /// `$` with [`Flags::MULTI`](crate::Flags::MULTI).
    EndLine {
        /// CR is a line terminator too, and CR LF a single one.
        crlf: bool,
    },
    /// `\<`, `\b{start}`
    LeftWordBoundary,
    /// `\b{start-half}`
    LeftWordHalfBoundary,
    /// `\>`, `\b{end}`
    RightWordBoundary,
    /// `\b{end-half}`
    RightWordHalfBoundary,
    /// `\b`
    WordBoundary,
    /// `\B`
    NotWordBoundary,
}

impl Assertion {
    pub(crate) fn number(self) -> u32 {
        match self {
            Assertion::StartText => numbers::ASSERTION_START_TEXT,
            Assertion::EndText => numbers::ASSERTION_END_TEXT,
            Assertion::EndTextIgnoreTrailingNewlines { .. } => numbers::ASSERTION_END_TEXT_IGNORE_TRAILING_NEWLINES,
            Assertion::StartLine { .. } => numbers::ASSERTION_START_LINE,
            Assertion::StartLineOniguruma { .. } => numbers::ASSERTION_START_LINE_ONIGURUMA,
            Assertion::EndLine { .. } => numbers::ASSERTION_END_LINE,
            Assertion::LeftWordBoundary => numbers::ASSERTION_LEFT_WORD_BOUNDARY,
            Assertion::LeftWordHalfBoundary => numbers::ASSERTION_LEFT_WORD_HALF_BOUNDARY,
            Assertion::RightWordBoundary => numbers::ASSERTION_RIGHT_WORD_BOUNDARY,
            Assertion::RightWordHalfBoundary => numbers::ASSERTION_RIGHT_WORD_HALF_BOUNDARY,
            Assertion::WordBoundary => numbers::ASSERTION_WORD_BOUNDARY,
            Assertion::NotWordBoundary => numbers::ASSERTION_NOT_WORD_BOUNDARY,
        }
    }

    pub(crate) fn numbered(number: u32, crlf: bool) -> Option<Assertion> {
        Some(match number {
            numbers::ASSERTION_START_TEXT => Assertion::StartText,
            numbers::ASSERTION_END_TEXT => Assertion::EndText,
            numbers::ASSERTION_END_TEXT_IGNORE_TRAILING_NEWLINES => Assertion::EndTextIgnoreTrailingNewlines { crlf },
            numbers::ASSERTION_START_LINE => Assertion::StartLine { crlf },
            numbers::ASSERTION_START_LINE_ONIGURUMA => Assertion::StartLineOniguruma { crlf },
            numbers::ASSERTION_END_LINE => Assertion::EndLine { crlf },
            numbers::ASSERTION_LEFT_WORD_BOUNDARY => Assertion::LeftWordBoundary,
            numbers::ASSERTION_LEFT_WORD_HALF_BOUNDARY => Assertion::LeftWordHalfBoundary,
            numbers::ASSERTION_RIGHT_WORD_BOUNDARY => Assertion::RightWordBoundary,
            numbers::ASSERTION_RIGHT_WORD_HALF_BOUNDARY => Assertion::RightWordHalfBoundary,
            numbers::ASSERTION_WORD_BOUNDARY => Assertion::WordBoundary,
            numbers::ASSERTION_NOT_WORD_BOUNDARY => Assertion::NotWordBoundary,
            _ => return None,
        })
    }

    /// Whether CR is a line terminator too; false if the variant has no such field.
    pub(crate) fn crlf(self) -> bool {
        match self {
            Assertion::EndTextIgnoreTrailingNewlines { crlf }
            | Assertion::StartLine { crlf }
            | Assertion::StartLineOniguruma { crlf }
            | Assertion::EndLine { crlf } => crlf,
            _ => false,
        }
    }
}

/// Which look-around a [`LookAround`](crate::Expr::LookAround) is.
#[derive(Debug, Clone, Copy, PartialEq, Eq)]
#[non_exhaustive]
pub enum LookAround {
    /// `(?=a)`
    LookAhead,
    /// `(?!a)`
    LookAheadNeg,
    /// `(?<=a)`
    LookBehind,
    /// `(?<!a)`
    LookBehindNeg,
}

impl LookAround {
    pub(crate) fn number(self) -> u32 {
        match self {
            LookAround::LookAhead => numbers::LOOK_AHEAD,
            LookAround::LookAheadNeg => numbers::LOOK_AHEAD_NEG,
            LookAround::LookBehind => numbers::LOOK_BEHIND,
            LookAround::LookBehindNeg => numbers::LOOK_BEHIND_NEG,
        }
    }

    pub(crate) fn numbered(number: u32) -> Option<LookAround> {
        Some(match number {
            numbers::LOOK_AHEAD => LookAround::LookAhead,
            numbers::LOOK_AHEAD_NEG => LookAround::LookAheadNeg,
            numbers::LOOK_BEHIND => LookAround::LookBehind,
            numbers::LOOK_BEHIND_NEG => LookAround::LookBehindNeg,
            _ => return None,
        })
    }
}

/// Which verb a [`BacktrackingControlVerb`](crate::Expr::BacktrackingControlVerb) is.
#[derive(Debug, Clone, Copy, PartialEq, Eq)]
#[non_exhaustive]
pub enum BacktrackingControlVerb {
    /// `(*FAIL)`
    Fail,
    /// `(*ACCEPT)`
    Accept,
    /// `(*COMMIT)`
    Commit,
    /// `(*SKIP)`
    Skip,
    /// `(*PRUNE)`
    Prune,
}

impl BacktrackingControlVerb {
    pub(crate) fn number(self) -> u32 {
        match self {
            BacktrackingControlVerb::Fail => numbers::VERB_FAIL,
            BacktrackingControlVerb::Accept => numbers::VERB_ACCEPT,
            BacktrackingControlVerb::Commit => numbers::VERB_COMMIT,
            BacktrackingControlVerb::Skip => numbers::VERB_SKIP,
            BacktrackingControlVerb::Prune => numbers::VERB_PRUNE,
        }
    }

    pub(crate) fn numbered(number: u32) -> Option<BacktrackingControlVerb> {
        Some(match number {
            numbers::VERB_FAIL => BacktrackingControlVerb::Fail,
            numbers::VERB_ACCEPT => BacktrackingControlVerb::Accept,
            numbers::VERB_COMMIT => BacktrackingControlVerb::Commit,
            numbers::VERB_SKIP => BacktrackingControlVerb::Skip,
            numbers::VERB_PRUNE => BacktrackingControlVerb::Prune,
            _ => return None,
        })
    }
}

/// Which absent form a node is, without its children.
#[derive(Debug, Clone, Copy, PartialEq, Eq)]
#[non_exhaustive]
pub enum AbsentKind {
    /// `(?~a)`: any text that does not contain a match of the child.
    Repeater,
    /// `(?~|a|b)`: a match of the second child in a text that does not contain a match of the first.
    Expression,
    /// `(?~|a)`: from here on the text must not contain a match of the child.
    Stopper,
    /// `(?~|)`: ends the effect of a stopper.
    Clear,
}

impl AbsentKind {
    pub(crate) fn number(self) -> u32 {
        match self {
            AbsentKind::Repeater => numbers::ABSENT_REPEATER,
            AbsentKind::Expression => numbers::ABSENT_EXPRESSION,
            AbsentKind::Stopper => numbers::ABSENT_STOPPER,
            AbsentKind::Clear => numbers::ABSENT_CLEAR,
        }
    }

    pub(crate) fn numbered(number: u32) -> Option<AbsentKind> {
        Some(match number {
            numbers::ABSENT_REPEATER => AbsentKind::Repeater,
            numbers::ABSENT_EXPRESSION => AbsentKind::Expression,
            numbers::ABSENT_STOPPER => AbsentKind::Stopper,
            numbers::ABSENT_CLEAR => AbsentKind::Clear,
            _ => return None,
        })
    }
}
