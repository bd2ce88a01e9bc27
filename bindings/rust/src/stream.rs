//! A source as a stream of items, with the definitions and texts that come between them.
//!
//! Items are read ahead of those that were taken. So if a definition comes that was to come before them, the source is read
//! anew up to the last item that was taken, and from then on item by item.
use crate::batch::{Batch, Fault};
use crate::handle::{End, Handle, OverBudget, TooDeep};
use crate::raw;
use crate::token::{Location, PreprocessorError, Token};

// How many items are read at a time, at most.
const MOST: u64 = 256;

pub struct Stream<'a> {
    // It reads the source and the texts, so it is dropped first.
    handle: Option<Handle<'a>>,
    input: &'a str,
    options: raw::Options,
    flags: u32,
    // The definitions that were added and the texts that were included, each with the number of items that were taken before
    // it. The one of number 1 is the first.
    added: Vec<(u64, Added)>,
    batch: Batch,
    // How many items were taken, and how many would be if all were that the library was asked for.
    taken: u64,
    asked: u64,
    // How many to ask for next, and whether that is always one.
    most: u64,
    is_single: bool,
    // Whether no item comes any more, and why.
    is_over: bool,
    is_over_budget: bool,
}

enum Added {
    Definition(String, String),
    Text(String),
}

impl<'a> Stream<'a> {
    /// The items of a source. With `raw::ASKS` each `#include` line asks for its text.
    pub fn new(input: &'a str, options: raw::Options, flags: u32) -> Stream<'a> {
        Stream {
            handle: None,
            input,
            options,
            flags,
            added: Vec::new(),
            batch: Batch::new(flags & raw::ASKS != 0),
            taken: 0,
            asked: 0,
            most: 1,
            is_single: false,
            is_over: false,
            is_over_budget: false,
        }
    }

    /// The next item, or `None` at the end and over the budget. An error is made of its fault.
    #[inline(always)]
    pub fn next<E>(&mut self, error: impl FnOnce(Fault) -> E) -> Option<Result<Token, E>> {
        if self.batch.is_empty() && !self.fill() {
            return None;
        }
        self.taken += 1;
        self.batch.take(error)
    }

    /// The number of the text in which the item is that was taken last, right after it was.
    pub fn text_number(&self) -> u32 {
        self.batch.text_number()
    }

    /// Whether the items need more steps than the budget has.
    pub fn is_over_budget(&self) -> bool {
        self.is_over_budget
    }

    /// Bounds the steps that the items take, or not if it is 0.
    pub fn set_budget(&mut self, steps: u64) {
        self.options.budget = steps;
        self.close();
    }

    /// Adds a definition behind the items that were taken. After an error nothing is changed.
    pub fn add_define(
        &mut self,
        name: &str,
        content: &str,
    ) -> Result<(), (PreprocessorError, Location)> {
        if self.is_ahead() {
            self.close();
            self.most = 1;
            self.is_single = true;
        }
        self.call(|handle, _| handle.define(name, content))?;
        let definition = Added::Definition(name.to_owned(), content.to_owned());
        self.added.push((self.taken, definition));
        Ok(())
    }

    /// Puts a text in place of the line that was taken last, which asks for it.
    pub fn include(&mut self, text: &str) -> Result<(), TooDeep> {
        let text = text.to_owned();
        // SAFETY: the text stays in `added`, from which nothing is dropped before the handle is.
        self.call(|handle, _| unsafe { handle.include(&text) })?;
        self.added.push((self.taken, Added::Text(text)));
        Ok(())
    }

    /// The text of a number: the source, or an included text.
    pub fn text(&self, number: u32) -> Option<&str> {
        let Some(at) = (number as usize).checked_sub(1) else {
            return Some(self.input);
        };
        match self.added.get(at)? {
            (_, Added::Text(text)) => Some(text),
            (_, Added::Definition(..)) => None,
        }
    }

    // Whether the library has read more than was taken: items, the end, or an item that found no room.
    fn is_ahead(&self) -> bool {
        !self.is_over && (!self.batch.is_empty() || self.taken < self.asked)
    }

    // Reads the next items, if there are any.
    #[cold]
    fn fill(&mut self) -> bool {
        if self.is_over {
            return false;
        }
        let most = self.most;
        match self.call(|handle, batch| batch.fill(handle, most)) {
            Ok(End::Front | End::Source) => self.asked = self.taken + most,
            // Nothing is read after a line that asks.
            Ok(End::Line) => self.asked = self.taken,
            Err(OverBudget) => self.handle = Some(self.give_up()),
        }
        if !self.is_single {
            self.most = MOST.min(2 * most);
        }
        self.is_over |= self.batch.is_empty();
        !self.is_over
    }

    // Calls the library, behind the items that were read.
    fn call<T>(&mut self, call: impl FnOnce(&mut Handle<'a>, &mut Batch) -> T) -> T {
        let mut handle = match self.handle.take() {
            Some(handle) => handle,
            None => self.open().unwrap_or_else(|OverBudget| self.give_up()),
        };
        let answer = call(&mut handle, &mut self.batch);
        self.handle = Some(handle);
        answer
    }

    // Opens the library's stream, and reads the items that were taken, with what came between them.
    fn open(&mut self) -> Result<Handle<'a>, OverBudget> {
        let mut handle = Handle::open(self.input, &self.options, self.flags);
        let mut passed = 0;
        for (after, added) in &self.added {
            self.batch.pass(&mut handle, after - passed)?;
            passed = *after;
            // Neither is refused, since it wasn't before.
            match added {
                Added::Definition(name, content) => drop(handle.define(name, content)),
                // SAFETY: as in `include`.
                Added::Text(text) => drop(unsafe { handle.include(text) }),
            }
        }
        self.batch.pass(&mut handle, self.taken - passed)?;
        Ok(handle)
    }

    // Forgets what was read ahead, so that the next call opens a stream.
    fn close(&mut self) {
        self.handle = None;
        self.batch.clear();
        self.asked = self.taken;
    }

    // Gives no item any more: a stream that only answers whether a definition has an error.
    fn give_up(&mut self) -> Handle<'a> {
        self.is_over = true;
        self.is_over_budget = true;
        let options = raw::Options {
            budget: 0,
            ..self.options
        };
        Handle::open("", &options, self.flags)
    }
}
