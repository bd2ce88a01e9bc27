//! pp.h in Rust.
use std::ffi::c_void;

#[repr(C)]
#[derive(Clone, Copy)]
pub struct Item {
    pub kind: u16,
    pub error: u16,
    pub flags: u32,
    pub children: u32,
    pub width: i32,
    pub start: u32,
    pub end: u32,
    pub line: u32,
    pub text_length: u32,
    pub value: u64,
}

#[repr(C)]
pub struct Stream {
    pub state: *mut c_void,
}

/// What is wrong with a definition, and where in its content. The error 0 is none.
#[repr(C)]
#[derive(Clone, Copy, Default)]
pub struct Fault {
    pub error: u32,
    pub start: u32,
    pub end: u32,
    pub line: u32,
}

#[repr(C)]
#[derive(Clone, Copy, Default)]
pub struct Sizes {
    pub items: u64,
    pub texts: u64,
}

#[repr(C)]
#[derive(Clone, Copy)]
pub struct Options {
    pub size: u64,
    pub rules: u32,
    pub version: u32,
    pub budget: u64,
    pub most_items: u64,
}

impl Options {
    /// These rules, without a bound.
    pub fn with_rules(rules: u32, version: u32) -> Options {
        Options {
            size: std::mem::size_of::<Options>() as u64,
            rules,
            version,
            budget: 0,
            most_items: 0,
        }
    }
}

pub const DONE: u32 = 0;
pub const TOO_SMALL: u32 = 1;
pub const TOO_LONG: u32 = 3;
pub const OUT_OF_MEMORY: u32 = 5;
pub const OVER_BUDGET: u32 = 6;
pub const PARTIAL: u32 = 7;
pub const INCLUDE: u32 = 9;
pub const TOO_DEEP: u32 = 10;

/// Flags of a source: each `#include` line asks for its text, and the source is UTF-8, so it isn't looked through.
pub const ASKS: u32 = 1;
pub const IS_UTF8: u32 = 2;

pub const RULES_PP_RS: u32 = 0;
pub const RULES_CORE: u32 = 1;
pub const RULES_COMPATIBILITY: u32 = 2;
pub const RULES_ES: u32 = 3;

pub const ERROR: u16 = 0;
pub const IDENT: u16 = 2;
pub const INTEGER: u16 = 3;
pub const FLOAT: u16 = 4;
pub const VERSION: u16 = 5;
pub const EXTENSION: u16 = 6;
pub const PRAGMA: u16 = 7;
pub const INCLUDE_LINE: u16 = 10;
pub const FIRST_PUNCTUATOR: u16 = 16;

pub const SIGNED: u32 = 1;
pub const FIRST_DIRECTIVE: u32 = 2;
pub const COMMENTS_BEFORE: u32 = 4;
pub const NON_DIRECTIVE_BEFORE: u32 = 8;

pub const UNEXPECTED_TOKEN: u16 = 4;

extern "C" {
    pub fn pp_stream_open(
        options: *const Options,
        flags: u32,
        source: *const u8,
        source_length: usize,
        stream: *mut Stream,
    ) -> u32;

    pub fn pp_stream_next(
        stream: *mut Stream,
        most: u64,
        items: *mut Item,
        items_length: usize,
        texts: *mut u8,
        texts_length: usize,
        numbers: *mut u32,
        numbers_length: usize,
        sizes: *mut Sizes,
    ) -> u32;

    pub fn pp_stream_define(
        stream: *mut Stream,
        name: *const u8,
        name_length: usize,
        content: *const u8,
        content_length: usize,
        fault: *mut Fault,
    ) -> u32;

    pub fn pp_stream_include(
        stream: *mut Stream,
        flags: u32,
        text: *const u8,
        text_length: usize,
    ) -> u32;

    pub fn pp_stream_close(stream: *mut Stream);
}
