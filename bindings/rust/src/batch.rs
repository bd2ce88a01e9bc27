//! Items of the library, as tokens and errors.
use crate::handle::{End, Handle, NoBatch, OverBudget};
use crate::raw;
use crate::token::*;

/// Items that the library wrote, with their texts, of which some were taken. What it writes next is in the same memory.
pub struct Batch {
    pub items: Vec<raw::Item>,
    pub texts: Vec<u8>,
    /// The number of the text of each item, if they are numbered.
    pub numbers: Vec<u32>,
    is_numbered: bool,
    at: usize,
}

// The first room.
const ROOM: raw::Sizes = raw::Sizes {
    items: 256,
    texts: 4096,
};

/// An error with its place in the item, as pp-rs has it, and its true place.
pub struct Fault {
    pub error: PreprocessorError,
    pub location: Location,
    pub place: Location,
    /// The rest of an `#include` line that asks for its text.
    pub rest: Option<Location>,
}

#[rustfmt::skip]
const PUNCTUATORS: [Punct; 45] = {
    use Punct::*;
    [
        AddAssign, SubAssign, MulAssign, DivAssign, ModAssign, LeftShiftAssign, RightShiftAssign, AndAssign, XorAssign,
        OrAssign, Increment, Decrement, LogicalAnd, LogicalOr, LogicalXor, LessEqual, GreaterEqual, EqualEqual,
        NotEqual, LeftShift, RightShift, LeftBrace, RightBrace, LeftParen, RightParen, LeftBracket, RightBracket,
        LeftAngle, RightAngle, Semicolon, Comma, Colon, Dot, Equal, Bang, Minus, Tilde, Plus, Star, Slash, Percent,
        Pipe, Caret, Ampersand, Question,
    ]
};

fn location(item: &raw::Item) -> Location {
    Location {
        start: item.start,
        end: item.end,
        line: item.line,
    }
}

/// The error of a number, with the token that it carries. 0 is none.
pub fn error_of(number: u16, carried: Option<TokenValue>) -> Option<PreprocessorError> {
    use PreprocessorError::*;
    Some(match number {
        1 => IntegerOverflow,
        2 => FloatParsingError,
        3 => UnexpectedCharacter,
        raw::UNEXPECTED_TOKEN => UnexpectedToken(carried?),
        5 => UnexpectedHash,
        6 => UnexpectedNewLine,
        7 => UnexpectedEndOfInput,
        8 => TooFewDefineArguments,
        9 => TooManyDefineArguments,
        10 => ErrorDirective,
        11 => DuplicateParameter,
        12 => UnknownDirective,
        13 => DefineRedefined,
        14 => ElifOutsideOfBlock,
        15 => ElseOutsideOfBlock,
        16 => EndifOutsideOfBlock,
        17 => ElifAfterElse,
        18 => MoreThanOneElse,
        19 => UnfinishedBlock,
        20 => LineOverflow,
        21 => NotSupported16BitLiteral,
        22 => NotSupported64BitLiteral,
        23 => MacroNotDefined,
        24 => RecursionLimitReached,
        25 => DivisionByZero,
        26 => RemainderByZero,
        _ => return None,
    })
}

impl Batch {
    /// No items. If they are numbered, it has the number of the text of each.
    pub fn new(is_numbered: bool) -> Batch {
        Batch {
            items: Vec::new(),
            texts: Vec::new(),
            numbers: Vec::new(),
            is_numbered,
            at: 0,
        }
    }

    /// Whether all items were taken.
    pub fn is_empty(&self) -> bool {
        self.at >= self.items.len()
    }

    /// Forgets the items.
    pub fn clear(&mut self) {
        self.items.clear();
        self.texts.clear();
        self.numbers.clear();
        self.at = 0;
    }

    /// Reads up to so many items, and one at least if there is one.
    pub fn fill(&mut self, handle: &mut Handle<'_>, most: u64) -> Result<End, OverBudget> {
        if self.items.capacity() == 0 {
            self.make_room(ROOM);
        }
        loop {
            match handle.next(most, self) {
                Ok(end) => return Ok(end),
                Err(NoBatch::TooSmall(sizes)) => self.make_room(sizes),
                Err(NoBatch::OverBudget(over)) => return Err(over),
            }
        }
    }

    /// Reads so many items, and forgets them.
    pub fn pass(&mut self, handle: &mut Handle<'_>, count: u64) -> Result<(), OverBudget> {
        let mut left = count;
        while left > 0 {
            self.fill(handle, left.min(ROOM.items))?;
            left -= self.count();
        }
        self.clear();
        Ok(())
    }

    // How many items there are, those that others hold not counted.
    fn count(&self) -> u64 {
        let (mut at, mut count) = (0, 0);
        while let Some(item) = self.items.get(at) {
            at += 1 + item.children as usize;
            count += 1;
        }
        count
    }

    // Gets room for as much at least.
    fn make_room(&mut self, sizes: raw::Sizes) {
        self.items.reserve(sizes.items as usize);
        self.texts.reserve(sizes.texts as usize);
        if self.is_numbered {
            self.numbers.reserve(self.items.capacity());
        }
    }

    /// The number of the text in which the item is that was taken last, or 0.
    pub fn text_number(&self) -> u32 {
        let last = self.numbers.get(self.at.wrapping_sub(1));
        last.copied().unwrap_or(0)
    }

    /// Takes the next item. An error is made of its fault.
    // Each token is written where it is wanted: a value that is made first would be copied.
    #[inline(always)]
    pub fn take<E>(&mut self, error: impl FnOnce(Fault) -> E) -> Option<Result<Token, E>> {
        let item = self.items.get(self.at)?;
        let location = location(item);
        self.at += 1;
        match item.kind {
            raw::IDENT => Some(Ok(Token {
                value: TokenValue::Ident(self.text(item).to_owned()),
                location,
            })),
            raw::INTEGER => Some(Ok(Token {
                value: TokenValue::Integer(Integer {
                    value: item.value,
                    signed: item.flags & raw::SIGNED != 0,
                    width: item.width,
                }),
                location,
            })),
            raw::FLOAT => Some(Ok(Token {
                value: TokenValue::Float(Float {
                    value: self.text(item).parse().expect("a float"),
                    width: item.width,
                }),
                location,
            })),
            kind => match PUNCTUATORS.get(usize::from(kind.wrapping_sub(raw::FIRST_PUNCTUATOR))) {
                Some(punct) => Some(Ok(Token {
                    value: TokenValue::Punct(*punct),
                    location,
                })),
                None => Some(self.take_other(error)),
            },
        }
    }

    // The error or the directive before the next item.
    #[cold]
    #[inline(never)]
    fn take_other<E>(&mut self, error: impl FnOnce(Fault) -> E) -> Result<Token, E> {
        let item = self.items[self.at - 1];
        if item.kind == raw::ERROR {
            return Err(error(self.take_fault(&item)));
        }
        Ok(Token {
            value: self.take_directive(&item),
            location: location(&item),
        })
    }

    // Takes what an error holds: its place, and the token that it carries or the rest of a line.
    fn take_fault(&mut self, item: &raw::Item) -> Fault {
        let end = self.at + item.children as usize;
        let place = location(&self.items[self.at]);
        self.at += 1;
        let (mut rest, mut carried) = (None, None);
        if self.at < end {
            match &self.items[self.at] {
                held if held.kind == raw::INCLUDE_LINE => rest = Some(location(held)),
                _ => carried = self.take_held().map(|token| token.value),
            }
        }
        self.at = end;
        Fault {
            error: error_of(item.error, carried).expect("an error"),
            location: location(item),
            place,
            rest,
        }
    }

    // Takes the tokens that a directive holds.
    fn take_directive(&mut self, item: &raw::Item) -> TokenValue {
        let has = |bit: u32| item.flags & bit != 0;
        let tokens = (0..item.children)
            .filter_map(|_| self.take_held())
            .collect();
        match item.kind {
            raw::VERSION => TokenValue::Version(Version {
                tokens,
                is_first_directive: has(raw::FIRST_DIRECTIVE),
                has_comments_before: has(raw::COMMENTS_BEFORE),
            }),
            raw::EXTENSION => TokenValue::Extension(Extension {
                tokens,
                has_non_directive_before: has(raw::NON_DIRECTIVE_BEFORE),
            }),
            raw::PRAGMA => TokenValue::Pragma(Pragma { tokens }),
            kind => unreachable!("kind {}", kind),
        }
    }

    // Takes a token that another item holds.
    fn take_held(&mut self) -> Option<Token> {
        self.take(|fault| fault.error)?.ok()
    }

    fn text(&self, item: &raw::Item) -> &str {
        let start = item.value as usize;
        // SAFETY: the text of an item that the library wrote is among its texts, and UTF-8, as its contract says.
        unsafe {
            let text = self
                .texts
                .get_unchecked(start..start + item.text_length as usize);
            std::str::from_utf8_unchecked(text)
        }
    }
}
