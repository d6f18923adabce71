//! The functions of `tc.h` that a reader of sound needs, and over them a [`Reader`] that is safe.
#![allow(non_camel_case_types)]
use std::ffi::c_void;

#[repr(C)] #[derive(Clone, Copy, Debug)]
pub struct tc_settings { pub system: u32, pub tolerance: u32, pub follows: u32, pub threshold: u32, pub fineness: u32, pub smooth: u32, pub pace: u32 }
#[repr(C)] #[derive(Clone, Copy, Debug, Default, PartialEq)]
pub struct tc_event {
    pub kind: u8, pub direction: u8, pub detail: u8, pub flags: u8,
    pub hours: u8, pub minutes: u8, pub seconds: u8, pub frames: u8,
    pub user: u32, pub zero: u32, pub tick: u64, pub length: u64,
}
#[repr(C)] #[derive(Clone, Copy)]
pub struct tc_taken { pub used: usize, pub made: usize, pub full: bool }
#[repr(C)]
pub struct tc_handle { pub at: *mut c_void }

pub const TC_ABI: u32 = 1;
pub const TC_WORD: u8 = 1;

extern "C" {
    pub fn tc_abi() -> u32;
    pub fn tc_reader_bytes() -> usize;
    pub fn tc_reader_boundary() -> usize;
    pub fn tc_reader_at(room: *mut c_void, handle: *mut tc_handle);
    pub fn tc_reader_start_(handle: *mut tc_handle, settings: *const tc_settings) -> bool;
    pub fn tc_reader_write_s16_(handle: *mut tc_handle, samples: *const i16, count: usize, events: *mut tc_event, room: usize) -> tc_taken;
    pub fn tc_reader_told_(handle: *mut tc_handle) -> u64;
}

/// 16 bytes at a boundary of 16, as the library asks of the room of a reader.
#[derive(Clone, Copy)] #[repr(C, align(16))]
struct Piece([u8; 16]);

/// Reads the words of a sound, in pieces of any length. A clone goes on from the same place.
#[derive(Clone)]
pub struct Reader { room: Box<[Piece]> }

impl Reader {
    /// A reader with these settings; none if one is out of range, or the library is of another version.
    pub fn new(settings: &tc_settings) -> Option<Reader> {
        // SAFETY: these three take no pointer.
        let (abi, bytes, boundary) = unsafe { (tc_abi(), tc_reader_bytes(), tc_reader_boundary()) };
        if abi != TC_ABI || boundary > std::mem::align_of::<Piece>() { return None; }
        let mut room = vec![Piece([0; 16]); bytes.div_ceil(16)].into_boxed_slice();
        let mut handle = tc_handle { at: std::ptr::null_mut() };
        // SAFETY: the room has as many bytes as the library asks for, at such a boundary.
        unsafe { tc_reader_at(room.as_mut_ptr().cast(), &mut handle) };
        let mut reader = Reader { room };
        // SAFETY: the reader was made just now.
        unsafe { tc_reader_start_(&mut reader.handle(), settings) }.then_some(reader)
    }

    fn handle(&mut self) -> tc_handle { tc_handle { at: self.room.as_mut_ptr().cast() } }

    /// Takes samples from the front, and gives how many, and their events. Fewer are taken only by a reader that is full.
    pub fn write(&mut self, samples: &[i16]) -> (usize, Vec<tc_event>) {
        let (mut at, mut brought, mut events) = (0, Vec::new(), [tc_event::default(); 64]);
        loop {
            let left = &samples[at..];
            // SAFETY: the pointers are those of a slice and of an array with these lengths, and `self` is held alone.
            let taken = unsafe { tc_reader_write_s16_(&mut self.handle(), left.as_ptr(), left.len(), events.as_mut_ptr(), events.len()) };
            brought.extend_from_slice(&events[..taken.made]);
            at += taken.used;
            if taken.full || events.len() - taken.made >= 2 { return (at, brought); }
        }
    }

    /// Up to which tick all words are told: one that is told later ends there or behind it.
    // SAFETY: the reader was made by `new`.
    pub fn told(&mut self) -> u64 { unsafe { tc_reader_told_(&mut self.handle()) } }
}
