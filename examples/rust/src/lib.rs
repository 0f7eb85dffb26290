//! What an unwinder needs of Hullsift, as safe Rust: no standard library, no allocation, no panic.
//!
//! Every function answers on all bytes and numbers, also on a [`Function`] or an [`Info`] that another image gave. tools/header compares what is declared
//! here with include/hullsift.h.
#![no_std]

use core::fmt;

mod c {
    extern "C" {
        pub fn hullsift_words(number: u8, words: *mut [u8; 64]);
        pub fn hullsift_register_name(number: u8, name: *mut [u8; 6]);
        pub fn hullsift_exceptions_open(file: *const u8, file_len: usize, out: *mut ExceptionData) -> u8;
        pub fn hullsift_find_function(file: *const u8, file_len: usize, opened: *const ExceptionData, address: u32, out: *mut FoundFunction) -> u8;
        pub fn hullsift_first_info(file: *const u8, file_len: usize, sections: *const Sections, begin: u32, end: u32, unwind: u32, out: *mut ReachedInfo) -> u8;
        pub fn hullsift_next_info(file: *const u8, file_len: usize, sections: *const Sections, links: usize, begin: u32, end: u32, unwind: u32, out: *mut ReachedInfo) -> u8;
        pub fn hullsift_read_code(file: *const u8, file_len: usize, at: usize, index: usize, out: *mut Code) -> u8;
    }

    #[repr(C)]
    #[derive(Clone, Copy, Default)]
    pub struct Sections {
        pub table: u64,
        pub count: u64,
        pub alignment: u64,
    }

    #[repr(C)]
    #[derive(Clone, Copy, Default)]
    pub struct ExceptionData {
        pub machine: u64,
        pub table: u64,
        pub count: u64,
        pub sections: Sections,
    }

    #[repr(C)]
    #[derive(Default)]
    pub struct FoundFunction {
        pub begin: u64,
        pub end: u64,
        pub unwind: u64,
        pub index: u64,
        pub reads: u64,
    }

    #[repr(C)]
    #[derive(Default)]
    pub struct UnwindInfo {
        pub version: u64,
        pub flags: u64,
        pub size_of_prolog: u64,
        pub count_of_codes: u64,
        pub frame_register: u64,
        pub frame_offset: u64,
        pub code_start: u64,
        pub follows_at: u64,
        pub follows: u64,
        pub a: u64,
        pub b: u64,
        pub c: u64,
    }

    #[repr(C)]
    #[derive(Default)]
    pub struct ReachedInfo {
        pub begin: u64,
        pub offset: u64,
        pub links: u64,
        pub info: UnwindInfo,
    }

    #[repr(C)]
    #[derive(Default)]
    pub struct Code {
        pub code_offset: u64,
        pub kind: u64,
        pub reg: u64,
        pub base: u64,
        pub amount: u64,
    }
}

/// Why a function refused.
#[derive(Clone, Copy, Debug, PartialEq, Eq)]
#[repr(u8)]
pub enum Answer {
    Short = 1,
    Magic = 2,
    Limit = 3,
    Contradiction = 4,
    NoSection = 5,
    Version = 6,
    Operation = 7,
    Links = 8,
    Order = 9,
    NotFound = 10,
    NotStrict = 11,
    Stack = 12,
    Room = 13,
    PastFile = 14,
    Machine = 15,
}

const ANSWERS: [Answer; 15] = {
    use Answer::*;
    [Short, Magic, Limit, Contradiction, NoSection, Version, Operation, Links, Order, NotFound, NotStrict, Stack, Room, PastFile, Machine]
};

fn answered<T>(number: u8, value: T) -> Result<T, Answer> {
    match number {
        0 => Ok(value),
        n => Err(*ANSWERS.get(n as usize - 1).unwrap_or(&Answer::Machine)), // no number is above the last
    }
}

fn write(f: &mut fmt::Formatter<'_>, text: &[u8]) -> fmt::Result {
    f.write_str(core::str::from_utf8(text).unwrap_or("").trim_end())
}

impl fmt::Display for Answer {
    fn fmt(&self, f: &mut fmt::Formatter<'_>) -> fmt::Result {
        let mut words = [0; 64];
        unsafe { c::hullsift_words(*self as u8, &mut words) };
        write(f, &words)
    }
}

/// A register: 0 to 15 are general ones, 17 to 32 XMM registers.
#[derive(Clone, Copy, Debug, PartialEq, Eq)]
pub struct Register(pub u8);

impl fmt::Display for Register {
    fn fmt(&self, f: &mut fmt::Formatter<'_>) -> fmt::Result {
        let mut name = [0; 6];
        unsafe { c::hullsift_register_name(self.0, &mut name) };
        write(f, &name)
    }
}

/// A runtime record.
#[derive(Clone, Copy, Debug, PartialEq, Eq)]
pub struct Function {
    pub begin: u32,
    pub end: u32,
    pub unwind: u32,
}

/// What follows the codes of an info.
#[derive(Clone, Copy, Debug, PartialEq, Eq)]
pub enum Follows {
    Nothing,
    Chained(Function),
    /// The address of a handler, and where its data is in the file.
    Handler { exception: bool, address: u32, start: usize, length: usize },
}

/// An unwind info, and how it was reached.
#[derive(Clone, Copy, Debug, PartialEq, Eq)]
pub struct Info {
    /// Begin of the record that names the info.
    pub begin: u32,
    /// Where it is in the file.
    pub offset: usize,
    /// How many links led to it.
    pub links: usize,
    pub version: u8,
    pub size_of_prolog: u8,
    /// 0 where there is none.
    pub frame_register: Register,
    pub frame_offset: u32,
    pub follows: Follows,
}

#[derive(Clone, Copy, Debug, PartialEq, Eq)]
pub enum Base {
    Rsp,
    Frame,
}

#[derive(Clone, Copy, Debug, PartialEq, Eq)]
pub enum Operation {
    Push(Register),
    Alloc(u32),
    SetFrame,
    Save(Register, Base, u32),
    SaveLowXmm(Register, Base, u32),
    Epilog { low: u8, high: u8 },
    SaveXmm(Register, Base, u32),
    MachineFrame { error_code: bool },
    NoEffect,
}

#[derive(Clone, Copy, Debug, PartialEq, Eq)]
pub struct Code {
    pub offset: u8,
    pub operation: Operation,
}

/// The exception data of an image that was opened.
#[derive(Clone, Copy)]
pub struct Image<'a> {
    file: &'a [u8],
    opened: c::ExceptionData,
}

// Each call is sound: a function of the library asks nothing but that its pointers are good, those here come from references, and none is kept.
impl<'a> Image<'a> {
    pub fn open(file: &'a [u8]) -> Result<Self, Answer> {
        let mut opened = c::ExceptionData::default();
        let number = unsafe { c::hullsift_exceptions_open(file.as_ptr(), file.len(), &mut opened) };
        answered(number, Image { file, opened })
    }

    /// The record that holds an address.
    pub fn find_function(&self, address: u32) -> Result<Function, Answer> {
        let mut out = c::FoundFunction::default();
        let number = unsafe { c::hullsift_find_function(self.file.as_ptr(), self.file.len(), &self.opened, address, &mut out) };
        answered(number, function(out.begin, out.end, out.unwind))
    }

    /// The info that a record leads to.
    pub fn first_info(&self, f: &Function) -> Result<Info, Answer> {
        let mut out = c::ReachedInfo::default();
        let number = unsafe { c::hullsift_first_info(self.file.as_ptr(), self.file.len(), &self.opened.sections, f.begin, f.end, f.unwind, &mut out) };
        answered(number, info(&out))
    }

    /// The info that one is chained to, or none where its chain ends.
    pub fn next_info(&self, from: &Info) -> Result<Option<Info>, Answer> {
        let f = match from.follows {
            Follows::Chained(f) => f,
            _ => return Ok(None),
        };
        let mut out = c::ReachedInfo::default();
        let number = unsafe { c::hullsift_next_info(self.file.as_ptr(), self.file.len(), &self.opened.sections, from.links, f.begin, f.end, f.unwind, &mut out) };
        answered(number, Some(info(&out)))
    }

    /// The code at an index of an info, or none after the last.
    pub fn read_code(&self, of: &Info, index: usize) -> Result<Option<Code>, Answer> {
        let mut out = c::Code::default();
        let number = unsafe { c::hullsift_read_code(self.file.as_ptr(), self.file.len(), of.offset, index, &mut out) };
        match answered(number, Some(code(&out))) {
            Err(Answer::NotFound) => Ok(None),
            other => other,
        }
    }
}

fn function(begin: u64, end: u64, unwind: u64) -> Function {
    Function { begin: begin as u32, end: end as u32, unwind: unwind as u32 }
}

fn info(out: &c::ReachedInfo) -> Info {
    let i = &out.info;
    Info {
        begin: out.begin as u32,
        offset: out.offset as usize,
        links: out.links as usize,
        version: i.version as u8,
        size_of_prolog: i.size_of_prolog as u8,
        frame_register: Register(i.frame_register as u8),
        frame_offset: i.frame_offset as u32,
        follows: match i.follows {
            0 => Follows::Nothing,
            1 => Follows::Chained(function(i.a, i.b, i.c)),
            kind => Follows::Handler { exception: kind == 2, address: i.a as u32, start: i.b as usize, length: i.c as usize },
        },
    }
}

fn code(out: &c::Code) -> Code {
    let (register, amount) = (Register(out.reg as u8), out.amount as u32);
    let base = if out.base == 0 { Base::Rsp } else { Base::Frame };
    let operation = match out.kind {
        0 => Operation::Push(register),
        1 => Operation::Alloc(amount),
        2 => Operation::SetFrame,
        3 => Operation::Save(register, base, amount),
        4 => Operation::SaveLowXmm(register, base, amount),
        5 => Operation::Epilog { low: out.amount as u8, high: out.base as u8 },
        6 => Operation::SaveXmm(register, base, amount),
        7 => Operation::MachineFrame { error_code: amount != 0 },
        _ => Operation::NoEffect,
    };
    Code { offset: out.code_offset as u8, operation }
}
