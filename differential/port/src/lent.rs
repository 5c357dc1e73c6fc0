//! Memory that is lent for one call, such that a byte read or written past one of its ends stops the run.
use std::alloc::{alloc, dealloc, Layout};
use std::ffi::{c_char, c_int, c_uint, c_void};
use std::marker::PhantomData;
use std::{ptr, slice};

unsafe extern "C" {
    fn memfd_create(name: *const c_char, flags: c_uint) -> c_int;
    fn ftruncate(file: c_int, length: i64) -> c_int;
    fn mmap(address: *mut c_void, length: usize, rights: c_int, flags: c_int, file: c_int, offset: i64) -> *mut c_void;
    fn munmap(address: *mut c_void, length: usize) -> c_int;
    fn close(file: c_int) -> c_int;
    fn signal(number: c_int, handler: usize) -> usize;
    safe fn fork() -> c_int;
    fn waitpid(child: c_int, status: *mut c_int, options: c_int) -> c_int;
    safe fn _exit(status: c_int) -> !;
}

// Linux on x86-64 and aarch64.
const NO_RIGHTS: c_int = 0;
const READ: c_int = 1;
const WRITE: c_int = 2;
const SHARED: c_int = 1;
const PRIVATE: c_int = 2;
const FIXED: c_int = 0x10;
const ANONYMOUS: c_int = 0x20;
const FAILED: usize = usize::MAX;

/// SIGILL, SIGABRT, SIGBUS, SIGFPE, SIGSEGV.
const FAULTS: [c_int; 5] = [4, 6, 7, 8, 11];
pub const SEGMENTATION_FAULT: i32 = 11;

/// Whole pages, of any size that machines have.
const GUARD: usize = 1 << 16;

/// How many bytes are watched on the side where no page without rights is.
const BESIDE: usize = 64;
const BESIDE_BYTE: u8 = 0xa5;

/// Which end of what is lent meets a page without rights.
#[derive(Clone, Copy, Debug, PartialEq, Eq)]
pub enum Side {
    Start,
    End,
}

/// The same pages twice: once for the run, which writes and reads them between calls, and once between pages without rights, to be lent.
struct Pages {
    own: *mut u8,
    lent: *mut u8,
    room: usize,
}

impl Pages {
    fn new(writable: bool, room: usize) -> Self {
        let room = room.next_multiple_of(GUARD);
        let checked = |address: *mut c_void| {
            assert_ne!(address as usize, FAILED, "mmap: {}", std::io::Error::last_os_error());
            address.cast::<u8>()
        };
        let rights = if writable { READ | WRITE } else { READ };
        unsafe {
            let file = memfd_create(c"lent".as_ptr(), 0);
            assert!(file >= 0 && ftruncate(file, room as i64) == 0, "memfd_create: {}", std::io::Error::last_os_error());
            let own = checked(mmap(ptr::null_mut(), room, READ | WRITE, SHARED, file, 0));
            let all = checked(mmap(ptr::null_mut(), GUARD + room + GUARD, NO_RIGHTS, PRIVATE | ANONYMOUS, -1, 0));
            let lent = checked(mmap(all.add(GUARD).cast(), room, rights, SHARED | FIXED, file, 0));
            close(file);
            Self { own, lent, room }
        }
    }
}

impl Drop for Pages {
    fn drop(&mut self) {
        unsafe {
            munmap(self.own.cast(), self.room);
            munmap(self.lent.sub(GUARD).cast(), GUARD + self.room + GUARD);
        }
    }
}

/// A heap block of exactly so many bytes, none for 0.
struct Block(*mut u8, Layout);

impl Block {
    fn new(len: usize) -> Self {
        let layout = Layout::from_size_align(len, 8).expect("a length that can be had");
        Self(if len == 0 { ptr::without_provenance_mut(8) } else { unsafe { alloc(layout) } }, layout)
    }
}

impl Drop for Block {
    fn drop(&mut self) {
        if self.1.size() > 0 {
            unsafe { dealloc(self.0, self.1) }
        }
    }
}

enum Held {
    Pages(Pages),
    /// A new block for each call, for valgrind, which knows where it ends.
    Heap(Block),
}

/// What one slice of a call is lent from.
pub struct Memory {
    held: Held,
    writable: bool,
    start: usize,
    len: usize,
}

/// A pointer and a length for the time of a call.
#[derive(Clone, Copy)]
pub struct Lent<'a> {
    pub(crate) pointer: *mut u8,
    pub(crate) len: usize,
    pub(crate) writable: bool,
    memory: PhantomData<&'a Memory>,
}

impl Lent<'_> {
    /// Null, with length 0.
    pub fn null() -> Self {
        Self { pointer: ptr::null_mut(), len: 0, writable: true, memory: PhantomData }
    }

    /// The first bytes of the same memory, to be read.
    pub fn first(self, len: usize) -> Self {
        Self { len: len.min(self.len), writable: false, ..self }
    }
}

impl Memory {
    /// Pages for so many bytes, which cannot be written by whom they are lent to, unless `writable`.
    pub fn guarded(writable: bool, room: usize) -> Self {
        Self { held: Held::Pages(Pages::new(writable, room)), writable, start: 0, len: 0 }
    }

    pub fn heap(writable: bool) -> Self {
        Self { held: Held::Heap(Block::new(0)), writable, start: 0, len: 0 }
    }

    fn own(&self) -> *mut u8 {
        match &self.held {
            Held::Pages(pages) => pages.own,
            Held::Heap(block) => block.0,
        }
    }

    /// Lends these bytes. The end of an empty slice is on the page without rights.
    pub fn lend(&mut self, bytes: &[u8], side: Side) -> Lent<'_> {
        self.len = bytes.len();
        self.start = 0;
        let base = match &mut self.held {
            Held::Pages(pages) => {
                assert!(self.len <= pages.room, "{} bytes are too many to lend", self.len);
                self.start = if side == Side::End { pages.room - self.len } else { 0 };
                pages.lent
            }
            Held::Heap(block) => {
                *block = Block::new(self.len);
                block.0
            }
        };
        let pointer = unsafe { base.add(self.start) };
        unsafe { ptr::copy_nonoverlapping(bytes.as_ptr(), self.own().add(self.start), self.len) };
        if let Some(beside) = self.beside() {
            beside.fill(BESIDE_BYTE);
        }
        Lent { pointer, len: self.len, writable: self.writable, memory: PhantomData }
    }

    /// Where it lies against no page without rights.
    fn beside(&mut self) -> Option<&mut [u8]> {
        let Held::Pages(pages) = &self.held else { return None };
        if !self.writable {
            return None;
        }
        let (from, to) = match self.start {
            0 => (self.len, pages.room.min(self.len + BESIDE)),
            start => (start.saturating_sub(BESIDE), start),
        };
        Some(unsafe { slice::from_raw_parts_mut(self.own().add(from), to - from) })
    }

    /// The bytes that were lent, as they are now; `None` where one beside them was written.
    pub fn after(&mut self) -> Option<&[u8]> {
        if self.beside().is_some_and(|beside| beside.iter().any(|&b| b != BESIDE_BYTE)) {
            return None;
        }
        Some(unsafe { slice::from_raw_parts(self.own().add(self.start), self.len) })
    }
}

/// A fault that a control makes on purpose.
#[derive(Clone, Copy, Debug, PartialEq, Eq)]
pub enum Fault {
    /// A read of the byte before what is lent, or after it.
    Read(Side),
    /// A write of the first byte that is lent.
    Write,
}

/// How a process ended.
#[derive(Clone, Copy, Debug, PartialEq, Eq)]
pub enum Ended {
    Exited(i32),
    Killed(i32),
}

/// Makes the fault in a child process. To be called while the process has one thread.
pub fn faulted(lent: Lent, fault: Fault) -> Ended {
    let child = fork();
    if child == 0 {
        for number in FAULTS {
            unsafe { signal(number, 0) };
        }
        unsafe {
            match fault {
                Fault::Read(Side::Start) => drop(lent.pointer.wrapping_sub(1).read_volatile()),
                Fault::Read(Side::End) => drop(lent.pointer.wrapping_add(lent.len).read_volatile()),
                Fault::Write => lent.pointer.write_volatile(0),
            }
        }
        _exit(0);
    }
    let mut status = 0;
    assert!(child > 0 && unsafe { waitpid(child, &mut status, 0) } == child, "fork: {}", std::io::Error::last_os_error());
    if status & 0x7f == 0 { Ended::Exited(status >> 8 & 0xff) } else { Ended::Killed(status & 0x7f) }
}

/// Hands a crash to `tell`, on the thread that crashed, and ends the process with status 1.
pub fn on_crash(tell: fn(i32)) {
    static TELL: std::sync::OnceLock<fn(i32)> = std::sync::OnceLock::new();
    extern "C" fn handler(number: c_int) {
        for number in FAULTS {
            unsafe { signal(number, 0) };
        }
        if let Some(tell) = TELL.get() {
            tell(number);
        }
        _exit(1);
    }
    let _ = TELL.set(tell);
    for number in FAULTS {
        unsafe { signal(number, handler as extern "C" fn(c_int) as usize) };
    }
}
