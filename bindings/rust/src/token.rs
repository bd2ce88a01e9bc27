//! Tokens with their places, and errors.
use std::fmt;

/// The place of a token in its source.
#[derive(Clone, Copy, PartialEq, Debug)]
pub struct Location {
    /// The byte offset at which it begins.
    pub start: u32,
    /// The byte offset after it.
    pub end: u32,
    /// The line on which it begins, from 1.
    pub(crate) line: u32,
}

impl Location {
    /// The line on which it begins, from 1. pp-rs keeps it to itself.
    pub fn line(&self) -> u32 {
        self.line
    }
}

impl Default for Location {
    fn default() -> Self {
        Location {
            start: 0,
            end: 0,
            line: 1,
        }
    }
}

/// A punctuator.
#[derive(Clone, Copy, PartialEq, Debug)]
#[rustfmt::skip]
pub enum Punct {
    AddAssign, SubAssign, MulAssign, DivAssign, ModAssign, LeftShiftAssign, RightShiftAssign, AndAssign, XorAssign,
    OrAssign, Increment, Decrement, LogicalAnd, LogicalOr, LogicalXor, LessEqual, GreaterEqual, EqualEqual, NotEqual,
    LeftShift, RightShift, LeftBrace, RightBrace, LeftParen, RightParen, LeftBracket, RightBracket, LeftAngle,
    RightAngle, Semicolon, Comma, Colon, Dot, Equal, Bang, Minus, Tilde, Plus, Star, Slash, Percent, Pipe, Caret,
    Ampersand, Question,
}

/// What is wrong with a source.
#[derive(Clone, PartialEq, Debug)]
pub enum PreprocessorError {
    IntegerOverflow,
    FloatParsingError,
    UnexpectedCharacter,
    UnexpectedToken(TokenValue),
    UnexpectedHash,
    UnexpectedNewLine,
    UnexpectedEndOfInput,
    TooFewDefineArguments,
    TooManyDefineArguments,
    ErrorDirective,
    DuplicateParameter,
    UnknownDirective,
    DefineRedefined,
    ElifOutsideOfBlock,
    ElseOutsideOfBlock,
    EndifOutsideOfBlock,
    ElifAfterElse,
    MoreThanOneElse,
    UnfinishedBlock,
    LineOverflow,
    NotSupported16BitLiteral,
    NotSupported64BitLiteral,
    MacroNotDefined,
    RecursionLimitReached,
    DivisionByZero,
    RemainderByZero,
}

/// An integer literal.
#[derive(Clone, PartialEq, Debug)]
pub struct Integer {
    pub value: u64,
    pub signed: bool,
    pub width: i32,
}

/// A float literal. Its value is that of its spelling, rounded.
#[derive(Clone, PartialEq, Debug)]
pub struct Float {
    pub value: f32,
    pub width: i32,
}

/// A `#version` line.
#[derive(Clone, PartialEq, Debug)]
pub struct Version {
    pub tokens: Vec<Token>,
    pub is_first_directive: bool,
    pub has_comments_before: bool,
}

/// An `#extension` line.
#[derive(Clone, PartialEq, Debug)]
pub struct Extension {
    pub tokens: Vec<Token>,
    pub has_non_directive_before: bool,
}

/// A `#pragma` line.
#[derive(Clone, PartialEq, Debug)]
pub struct Pragma {
    pub tokens: Vec<Token>,
}

/// The value of a token: an ordinary one, or a directive that is handed on.
#[derive(Clone, PartialEq, Debug)]
pub enum TokenValue {
    Ident(String),
    Integer(Integer),
    Float(Float),
    Punct(Punct),
    Version(Version),
    Extension(Extension),
    Pragma(Pragma),
}

/// A token with its place.
#[derive(Clone, PartialEq, Debug)]
pub struct Token {
    pub value: TokenValue,
    pub location: Location,
}

impl Punct {
    fn spelling(self) -> &'static str {
        match self {
            Punct::AddAssign => "+=",
            Punct::SubAssign => "-=",
            Punct::MulAssign => "*=",
            Punct::DivAssign => "/=",
            Punct::ModAssign => "%=",
            Punct::LeftShiftAssign => "<<=",
            Punct::RightShiftAssign => ">>=",
            Punct::AndAssign => "&=",
            Punct::XorAssign => "^=",
            Punct::OrAssign => "|=",
            Punct::Increment => "++",
            Punct::Decrement => "--",
            Punct::LogicalAnd => "&&",
            Punct::LogicalOr => "||",
            Punct::LogicalXor => "^^",
            Punct::LessEqual => "<=",
            Punct::GreaterEqual => ">=",
            Punct::EqualEqual => "==",
            Punct::NotEqual => "!=",
            Punct::LeftShift => "<<",
            Punct::RightShift => ">>",
            Punct::LeftBrace => "{",
            Punct::RightBrace => "}",
            Punct::LeftParen => "(",
            Punct::RightParen => ")",
            Punct::LeftBracket => "[",
            Punct::RightBracket => "]",
            Punct::LeftAngle => "<",
            Punct::RightAngle => ">",
            Punct::Semicolon => ";",
            Punct::Comma => ",",
            Punct::Colon => ":",
            Punct::Dot => ".",
            Punct::Equal => "=",
            Punct::Bang => "!",
            Punct::Minus => "-",
            Punct::Tilde => "~",
            Punct::Plus => "+",
            Punct::Star => "*",
            Punct::Slash => "/",
            Punct::Percent => "%",
            Punct::Pipe => "|",
            Punct::Caret => "^",
            Punct::Ampersand => "&",
            Punct::Question => "?",
        }
    }
}

impl PreprocessorError {
    fn sentence(&self) -> &'static str {
        match self {
            PreprocessorError::IntegerOverflow => "malformed or out-of-range integer",
            PreprocessorError::FloatParsingError => "malformed number",
            PreprocessorError::UnexpectedCharacter => "unexpected character",
            PreprocessorError::UnexpectedToken(_) => "unexpected token",
            PreprocessorError::UnexpectedHash => "unexpected `#`",
            PreprocessorError::UnexpectedNewLine => "unexpected end of line",
            PreprocessorError::UnexpectedEndOfInput => {
                "unterminated macro call or incomplete expression"
            }
            PreprocessorError::TooFewDefineArguments => "too few arguments in macro call",
            PreprocessorError::TooManyDefineArguments => "too many arguments in macro call",
            PreprocessorError::ErrorDirective => "`#error` directive",
            PreprocessorError::DuplicateParameter => "duplicate macro parameter",
            PreprocessorError::UnknownDirective => "unknown directive",
            PreprocessorError::DefineRedefined => "macro redefined",
            PreprocessorError::ElifOutsideOfBlock => "`#elif` without `#if`",
            PreprocessorError::ElseOutsideOfBlock => "`#else` without `#if`",
            PreprocessorError::EndifOutsideOfBlock => "`#endif` without `#if`",
            PreprocessorError::ElifAfterElse => "`#elif` after `#else`",
            PreprocessorError::MoreThanOneElse => "`#else` after `#else`",
            PreprocessorError::UnfinishedBlock => "block without `#endif`",
            PreprocessorError::LineOverflow => "line number out of range",
            PreprocessorError::NotSupported16BitLiteral => "16-bit literals are not supported",
            PreprocessorError::NotSupported64BitLiteral => "64-bit literals are not supported",
            PreprocessorError::MacroNotDefined => "undefined macro",
            PreprocessorError::RecursionLimitReached => "too many nested macro calls",
            PreprocessorError::DivisionByZero => "division by zero",
            PreprocessorError::RemainderByZero => "remainder by zero",
        }
    }
}

/// How it is spelled: an integer in decimal, with `u` if it is unsigned, a float by its value, and of a directive the
/// first word, such as `#version`. pp-rs has no such text.
impl fmt::Display for TokenValue {
    fn fmt(&self, f: &mut fmt::Formatter<'_>) -> fmt::Result {
        match self {
            TokenValue::Ident(name) => f.write_str(name),
            TokenValue::Integer(integer) if integer.signed => write!(f, "{}", integer.value),
            TokenValue::Integer(integer) => write!(f, "{}u", integer.value),
            TokenValue::Float(float) => write!(f, "{:?}", float.value),
            TokenValue::Punct(punct) => f.write_str(punct.spelling()),
            TokenValue::Version(_) => f.write_str("#version"),
            TokenValue::Extension(_) => f.write_str("#extension"),
            TokenValue::Pragma(_) => f.write_str("#pragma"),
        }
    }
}

/// What is wrong, in lower case and without a full stop, and the token of an `UnexpectedToken`. pp-rs has no such text.
impl fmt::Display for PreprocessorError {
    fn fmt(&self, f: &mut fmt::Formatter<'_>) -> fmt::Result {
        f.write_str(self.sentence())?;
        if let PreprocessorError::UnexpectedToken(value) = self {
            write!(f, " `{}`", value)?;
        }
        Ok(())
    }
}

impl std::error::Error for PreprocessorError {}
