//! The preprocessor as an iterator of items.
use crate::raw;
use crate::stream::Stream;
use crate::token::{Location, PreprocessorError, Token};

pub type Step<T> = Result<T, StepExit>;

/// Why a step gives no token.
#[derive(Clone, PartialEq, Debug)]
pub enum StepExit {
    /// There is an error.
    Error((PreprocessorError, Location)),
    /// The next step may give one.
    Continue,
    /// The source is at its end.
    Finished,
}

impl<T> From<StepExit> for Step<T> {
    fn from(exit: StepExit) -> Self {
        Err(exit)
    }
}

/// What the preprocessor gives: a token, or an error with its place.
pub type PreprocessorItem = Result<Token, (PreprocessorError, Location)>;

/// A source as an iterator of its preprocessed tokens, which are made as they are read. It goes on after an error.
pub struct Preprocessor<'a> {
    stream: Stream<'a>,
}

impl<'a> Preprocessor<'a> {
    pub fn new(input: &'a str) -> Preprocessor<'a> {
        let options = raw::Options::with_rules(raw::RULES_PP_RS, 0);
        Preprocessor {
            stream: Stream::new(input, options, 0),
        }
    }

    /// Defines a name as an object-like macro, replacing any definition of it. After an error nothing is changed.
    ///
    /// The first definition that comes between items lets the source be read anew up to there, and the items after it one
    /// by one, which takes longer.
    pub fn add_define(
        &mut self,
        name: &str,
        content: &str,
    ) -> Result<(), (PreprocessorError, Location)> {
        self.stream.add_define(name, content)
    }
}

impl<'a> Iterator for Preprocessor<'a> {
    type Item = PreprocessorItem;

    fn next(&mut self) -> Option<PreprocessorItem> {
        self.stream.next(|fault| (fault.error, fault.location))
    }
}
