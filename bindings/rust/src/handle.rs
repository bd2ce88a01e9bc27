//! The library's stream over a source.
use crate::batch::{error_of, Batch};
use crate::raw;
use crate::token::{Location, PreprocessorError};
use std::alloc::{handle_alloc_error, Layout};
use std::marker::PhantomData;
use std::ptr;

/// A stream that is open, over a source that lives as long. Its pointer keeps it on its thread, as the library asks.
pub struct Handle<'a> {
    stream: raw::Stream,
    source: PhantomData<&'a str>,
}

/// Where the items of a batch end.
pub enum End {
    /// More may follow.
    Front,
    /// At an `#include` line that asks for its text.
    Line,
    /// At the end of the source.
    Source,
}

/// Why there is no batch.
pub enum NoBatch {
    /// The first item needs as much room.
    TooSmall(raw::Sizes),
    OverBudget(OverBudget),
}

/// The items need more steps than the budget has. No call does anything from then on.
pub struct OverBudget;

/// A text is inside of 200 others.
pub struct TooDeep;

fn refuse(status: u32) -> ! {
    match status {
        raw::OUT_OF_MEMORY => handle_alloc_error(Layout::new::<raw::Item>()),
        raw::TOO_LONG => panic!("a source or content has 2^32 - 1 bytes or more"),
        status => unreachable!("status {}", status),
    }
}

impl<'a> Handle<'a> {
    /// Opens a stream of the items of a source. With `raw::ASKS` in the flags each `#include` line asks for its text.
    pub fn open(source: &'a str, options: &raw::Options, flags: u32) -> Handle<'a> {
        let mut stream = raw::Stream {
            state: ptr::null_mut(),
        };
        // SAFETY: the source is UTF-8, and outlives the handle, which closes the stream.
        let status = unsafe {
            raw::pp_stream_open(
                options,
                flags | raw::IS_UTF8,
                source.as_ptr(),
                source.len(),
                &mut stream,
            )
        };
        match status {
            raw::DONE => Handle {
                stream,
                source: PhantomData,
            },
            status => refuse(status),
        }
    }

    /// Reads so many of the next items into a batch, or as many as there is room for.
    pub fn next(&mut self, most: u64, batch: &mut Batch) -> Result<End, NoBatch> {
        let mut sizes = raw::Sizes::default();
        batch.clear();
        // SAFETY: there is as much room as the lengths say, and nothing in it is read. If there are items, as many elements
        // were written as the sizes say, and a number for each item that has room for one.
        unsafe {
            let status = raw::pp_stream_next(
                &mut self.stream,
                most,
                batch.items.as_mut_ptr(),
                batch.items.capacity(),
                batch.texts.as_mut_ptr(),
                batch.texts.capacity(),
                batch.numbers.as_mut_ptr(),
                batch.numbers.capacity(),
                &mut sizes,
            );
            let end = match status {
                raw::DONE => End::Source,
                raw::PARTIAL => End::Front,
                raw::INCLUDE => End::Line,
                raw::TOO_SMALL => return Err(NoBatch::TooSmall(sizes)),
                raw::OVER_BUDGET => return Err(NoBatch::OverBudget(OverBudget)),
                status => refuse(status),
            };
            let items = sizes.items as usize;
            batch.items.set_len(items);
            batch.texts.set_len(sizes.texts as usize);
            batch.numbers.set_len(items.min(batch.numbers.capacity()));
            Ok(end)
        }
    }

    /// Adds a definition behind the items that were read. After an error nothing is changed.
    pub fn define(
        &mut self,
        name: &str,
        content: &str,
    ) -> Result<(), (PreprocessorError, Location)> {
        let mut fault = raw::Fault::default();
        // SAFETY: each pointer leads to as many bytes as the length after it says.
        let status = unsafe {
            raw::pp_stream_define(
                &mut self.stream,
                name.as_ptr(),
                name.len(),
                content.as_ptr(),
                content.len(),
                &mut fault,
            )
        };
        if status != raw::DONE {
            refuse(status)
        }
        match error_of(fault.error as u16, None) {
            None => Ok(()),
            Some(error) => Err((
                error,
                Location {
                    start: fault.start,
                    end: fault.end,
                    line: fault.line,
                },
            )),
        }
    }

    /// Puts a text in place of the line that was read last. After an error nothing is changed.
    ///
    /// # Safety
    ///
    /// The text stays where it is, and as it is, as long as the handle lives.
    pub unsafe fn include(&mut self, text: &str) -> Result<(), TooDeep> {
        match raw::pp_stream_include(&mut self.stream, raw::IS_UTF8, text.as_ptr(), text.len()) {
            raw::DONE => Ok(()),
            raw::TOO_DEEP => Err(TooDeep),
            status => refuse(status),
        }
    }
}

impl Drop for Handle<'_> {
    fn drop(&mut self) {
        // SAFETY: the stream is open.
        unsafe { raw::pp_stream_close(&mut self.stream) }
    }
}
