//! What pp-rs doesn't have: GLSL's rules, a budget, items that are made as they are read, the place of each error, and
//! included texts.
//!
//! ```
//! use pp_rs::reader::{Error, Profile, Reader, Rules};
//!
//! let source = "#if 0\nit's dead\n#endif\n#else\nfloat a = 1.0;";
//! let mut reader = Reader::with_rules(source, Rules::glsl(310, Profile::Es));
//! reader.set_budget(100_000_000);
//! match reader.next() {
//!     Some(Err(Error::Source { error, place })) => {
//!         assert_eq!(error.to_string(), "`#else` without `#if`");
//!         assert_eq!((place.start, place.line()), (24, 4));
//!     }
//!     _ => unreachable!(),
//! }
//! let texts: Vec<_> = reader.flatten().map(|token| token.value.to_string()).collect();
//! assert_eq!(texts, ["float", "a", "=", "1.0", ";"]);
//! ```
use crate::handle::TooDeep;
use crate::raw;
use crate::stream::Stream;
use crate::token::{Location, PreprocessorError, Token};
use std::fmt;

/// The profile of a version of GLSL.
#[derive(Clone, Copy, PartialEq, Eq, Debug)]
pub enum Profile {
    /// `core`, also of versions before 1.50, which have no profiles.
    Core,
    /// `compatibility`.
    Compatibility,
    /// `es`.
    Es,
}

/// Whose rules a source is read by.
#[derive(Clone, Copy, PartialEq, Eq, Debug)]
pub enum Rules {
    /// Those of pp-rs.
    PpRs,
    /// GLSL's.
    Glsl {
        /// The version, by its number in `#version`.
        version: u32,
        /// Its profile.
        profile: Profile,
    },
}

impl Rules {
    /// GLSL's rules for a version, by its number in `#version`: 450, or 310 with [`Profile::Es`].
    pub fn glsl(version: u32, profile: Profile) -> Rules {
        Rules::Glsl { version, profile }
    }

    fn options(self) -> raw::Options {
        let (rules, version) = match self {
            Rules::PpRs => (raw::RULES_PP_RS, 0),
            Rules::Glsl { version, profile } => match profile {
                Profile::Core => (raw::RULES_CORE, version),
                Profile::Compatibility => (raw::RULES_COMPATIBILITY, version),
                Profile::Es => (raw::RULES_ES, version),
            },
        };
        raw::Options::with_rules(rules, version)
    }
}

/// Why there is no token.
#[derive(Clone, PartialEq, Debug)]
#[non_exhaustive]
pub enum Error {
    /// The source is wrong. Items go on after it.
    Source {
        /// What is wrong.
        error: PreprocessorError,
        /// Where, also if it is an error of the lexer.
        place: Location,
    },
    /// The items need more steps than the budget has. Nothing comes after it.
    OverBudget,
}

impl fmt::Display for Error {
    fn fmt(&self, f: &mut fmt::Formatter<'_>) -> fmt::Result {
        match self {
            Error::Source { error, place } => write!(f, "line {}: {}", place.line(), error),
            Error::OverBudget => f.write_str("the source needs more steps than the budget has"),
        }
    }
}

impl std::error::Error for Error {
    fn source(&self) -> Option<&(dyn std::error::Error + 'static)> {
        match self {
            Error::Source { error, .. } => Some(error),
            Error::OverBudget => None,
        }
    }
}

/// Why a text was not included.
#[derive(Clone, Copy, PartialEq, Eq, Debug)]
#[non_exhaustive]
pub enum IncludeError {
    /// The last item was no `#include` line that asks for its text.
    NotAsked,
    /// 200 texts are around already.
    TooDeep,
}

impl fmt::Display for IncludeError {
    fn fmt(&self, f: &mut fmt::Formatter<'_>) -> fmt::Result {
        f.write_str(match self {
            IncludeError::NotAsked => "no line asks for a text",
            IncludeError::TooDeep => "texts are included more than 200 deep",
        })
    }
}

impl std::error::Error for IncludeError {}

/// A source as an iterator of its preprocessed tokens, which are made as they are read. It goes on after an error of the
/// source.
pub struct Reader<'a> {
    stream: Stream<'a>,
    // Whether it was said that the budget is over.
    is_over_budget: bool,
    // Of the last item: the number of its text, and the rest of its line if it asks for a text.
    text: u32,
    rest: Option<Location>,
}

impl<'a> Reader<'a> {
    /// Reads a source by pp-rs's rules.
    pub fn new(input: &'a str) -> Reader<'a> {
        Reader::with_rules(input, Rules::PpRs)
    }

    /// Reads a source, and the contents of definitions, by these rules. A float has the value of an `f32`, whatever its
    /// width is.
    pub fn with_rules(input: &'a str, rules: Rules) -> Reader<'a> {
        Reader::with_flags(input, rules, 0)
    }

    fn with_flags(input: &'a str, rules: Rules, flags: u32) -> Reader<'a> {
        Reader {
            stream: Stream::new(input, rules.options(), flags),
            is_over_budget: false,
            text: 0,
            rest: None,
        }
    }

    /// Reads a source by these rules, and asks each `#include` line for its text. So that a name between `"` is no token,
    /// errors of the lexer in dead text and on skipped lines aren't given, as by GLSL's rules.
    ///
    /// `next` returns the error `UnknownDirective` at the word, and [`include_line`](Reader::include_line) what follows
    /// it. [`include`](Reader::include) puts a text in place of the line, and without it reading goes on after it.
    ///
    /// ```
    /// use pp_rs::reader::{Profile, Reader, Rules};
    ///
    /// let source = "#include \"pi.glsl\"\nfloat a = PI;";
    /// let mut reader = Reader::with_includes(source, Rules::glsl(310, Profile::Es));
    /// let mut texts = Vec::new();
    /// while let Some(item) = reader.next() {
    ///     match reader.include_line().map(str::trim) {
    ///         Some("\"pi.glsl\"") => reader.include("#define PI 3.14\n")?,
    ///         Some(_) => break,
    ///         None => texts.push(item?.value.to_string()),
    ///     }
    /// }
    /// assert_eq!(texts, ["float", "a", "=", "3.14", ";"]);
    /// # Ok::<(), Box<dyn std::error::Error>>(())
    /// ```
    pub fn with_includes(input: &'a str, rules: Rules) -> Reader<'a> {
        Reader::with_flags(input, rules, raw::ASKS)
    }

    /// Bounds the steps that the items may take, from the first item on, or not if it is 0, as without this call.
    ///
    /// A step is a token that is read, put on a list, or passed in the body or an argument of a macro. Some thousand bytes
    /// of dead text may be one step. If more are needed for the items that are made next, `next` returns
    /// [`Error::OverBudget`]. So the time and the memory that a `next` takes are bounded by the number, and by the length
    /// of the longest token.
    pub fn set_budget(&mut self, steps: u64) {
        self.stream.set_budget(steps);
    }

    /// Defines a name as an object-like macro, replacing any definition of it. After an error nothing is changed.
    pub fn add_define(
        &mut self,
        name: &str,
        content: &str,
    ) -> Result<(), (PreprocessorError, Location)> {
        self.stream.add_define(name, content)
    }

    /// The rest of the line of the last item, after the word `include`, if it is a line that asks for its text.
    pub fn include_line(&self) -> Option<&str> {
        let rest = self.rest?;
        let text = self.stream.text(self.text)?;
        text.get(rest.start as usize..rest.end as usize)
    }

    /// Puts a text in place of the `#include` line that `next` returned last. Its definitions stay, its blocks and `#line`
    /// are its own, and behind its end reading goes on after the line. The errors are `NotAsked`, and `TooDeep` if 200
    /// texts are around; after either nothing is changed.
    pub fn include(&mut self, text: &str) -> Result<(), IncludeError> {
        if self.rest.is_none() {
            return Err(IncludeError::NotAsked);
        }
        self.stream
            .include(text)
            .map_err(|TooDeep| IncludeError::TooDeep)?;
        self.rest = None;
        Ok(())
    }

    /// The number of the text in which the place of the last item is: 0 for the source, and then one number more for each
    /// definition that was added and each text that was included. A token that a macro gives is in the text of the macro's
    /// body or of the argument. Without [`with_includes`](Reader::with_includes) it is always 0.
    pub fn text_number(&self) -> u32 {
        self.text
    }
}

impl<'a> Iterator for Reader<'a> {
    type Item = Result<Token, Error>;

    fn next(&mut self) -> Option<Self::Item> {
        let rest = &mut self.rest;
        *rest = None;
        let item = self.stream.next(|fault| {
            *rest = fault.rest;
            Error::Source {
                error: fault.error,
                place: fault.place,
            }
        });
        if item.is_some() {
            self.text = self.stream.text_number();
        } else if self.stream.is_over_budget() && !self.is_over_budget {
            self.is_over_budget = true;
            return Some(Err(Error::OverBudget));
        }
        item
    }
}
