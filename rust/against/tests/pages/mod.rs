//! Memory between pages that may not be touched, from the operating system itself.

use std::os::raw::{c_int, c_void};
use std::sync::atomic::{AtomicPtr, AtomicUsize, Ordering};
use std::sync::{Mutex, MutexGuard};

/// The bytes of a page on x86-64.
pub const PAGE: usize = 4096;

const PROT_NONE: c_int = 0;
const PROT_READ: c_int = 1;
const PROT_WRITE: c_int = 2;
const MAP_PRIVATE: c_int = 2;
const MAP_ANONYMOUS: c_int = 0x20;
const SIGBUS: c_int = 7;
const SIGSEGV: c_int = 11;

extern "C" {
    fn mmap(
        address: *mut c_void,
        length: usize,
        protection: c_int,
        flags: c_int,
        file: c_int,
        offset: i64,
    ) -> *mut c_void;
    fn mprotect(address: *mut c_void, length: usize, protection: c_int) -> c_int;
    fn munmap(address: *mut c_void, length: usize) -> c_int;
    fn signal(number: c_int, handler: extern "C" fn(c_int)) -> usize;
    fn write(file: c_int, bytes: *const c_void, length: usize) -> isize;
    fn _exit(status: c_int) -> !;
}

/// Which end of a slice stands flush against a page that may not be touched.
#[derive(Clone, Copy, Debug, PartialEq, Eq)]
pub enum Flush {
    /// Its first byte.
    Front,
    /// Its last byte.
    Back,
}

/// Some pages, and one on either side of them that may not be touched.
pub struct Room {
    /// The page before the first byte of the room.
    before: *mut u8,
    /// How many bytes there is room for.
    bytes: usize,
}

impl Room {
    /// A room of so many pages.
    pub fn new(pages: usize) -> Self {
        let bytes = pages * PAGE;
        let (all, flags) = (bytes + 2 * PAGE, MAP_PRIVATE | MAP_ANONYMOUS);
        // SAFETY: a new mapping of its own, at an address of the system's choice.
        let before = unsafe { mmap(std::ptr::null_mut(), all, PROT_NONE, flags, -1, 0) };
        assert_ne!(before as isize, -1, "the system gives the pages");
        let before = before.cast();
        Room { before, bytes }
    }

    /// These bytes, flush against a page that may not be touched. A room that is too small becomes
    /// one of as many pages as they take.
    pub fn lend(&mut self, bytes: &[u8], flush: Flush) -> &mut [u8] {
        if bytes.len() > self.bytes {
            *self = Room::new((bytes.len() + PAGE - 1) / PAGE);
        }
        self.protect(PROT_READ | PROT_WRITE);
        let offset = match flush {
            Flush::Front => 0,
            Flush::Back => self.bytes - bytes.len(),
        };
        // SAFETY: the bytes lie within the room, which may be read and written, and are borrowed
        // with it.
        let lent = unsafe {
            let start = self.before.add(PAGE + offset);
            std::slice::from_raw_parts_mut(start, bytes.len())
        };
        lent.copy_from_slice(bytes);
        lent
    }

    /// The same, and the bytes may only be read.
    pub fn lend_to_read(&mut self, bytes: &[u8], flush: Flush) -> &[u8] {
        let lent: *const [u8] = self.lend(bytes, flush);
        self.protect(PROT_READ);
        // SAFETY: the bytes lie within the room, which may be read, and are borrowed with it.
        unsafe { &*lent }
    }

    /// Says what may be done with the room's bytes.
    fn protect(&mut self, protection: c_int) {
        // SAFETY: the pages are this room's own, and nobody holds a slice of them.
        let done = unsafe { mprotect(self.before.add(PAGE).cast(), self.bytes, protection) };
        assert_eq!(done, 0, "the room's pages can be protected");
    }

    /// Where the page before the room, the room, the page after it and what follows begin.
    pub fn bounds(&self) -> [usize; 4] {
        let before = self.before as usize;
        let (start, end) = (before + PAGE, before + PAGE + self.bytes);
        [before, start, end, end + PAGE]
    }
}

impl Drop for Room {
    fn drop(&mut self) {
        // SAFETY: the mapping is this room's own, and no slice of it outlives the room.
        unsafe { munmap(self.before.cast(), self.bytes + 2 * PAGE) };
    }
}

/// What is said when a byte outside is touched: its bytes, and how many.
static WORDS: AtomicPtr<u8> = AtomicPtr::new(std::ptr::null_mut());
static LENGTH: AtomicUsize = AtomicUsize::new(0);

/// One test at a time may say what it tries.
static ONE: Mutex<()> = Mutex::new(());

/// The right to say what is tried: a touch outside the lent slices then ends the program with a
/// word on it, not only with a signal.
pub struct Watch {
    words: String,
    _one: MutexGuard<'static, ()>,
}

impl Watch {
    /// Watches from now on.
    pub fn new() -> Self {
        let one = ONE.lock().unwrap_or_else(|broken| broken.into_inner());
        // SAFETY: the handler calls only what a handler may.
        unsafe {
            signal(SIGSEGV, touched);
            signal(SIGBUS, touched);
        }
        Watch {
            words: String::new(),
            _one: one,
        }
    }

    /// This is tried from now on.
    pub fn tries(&mut self, what: String) {
        LENGTH.store(0, Ordering::SeqCst);
        self.words =
            format!("\na byte outside the slices was touched, or the text written: {what}\n");
        WORDS.store(self.words.as_mut_ptr(), Ordering::SeqCst);
        LENGTH.store(self.words.len(), Ordering::SeqCst);
    }
}

impl Drop for Watch {
    fn drop(&mut self) {
        LENGTH.store(0, Ordering::SeqCst);
    }
}

/// Says what was tried when a byte outside was touched, and ends the program as a panic would.
extern "C" fn touched(_signal: c_int) {
    let (words, length) = (WORDS.load(Ordering::SeqCst), LENGTH.load(Ordering::SeqCst));
    // SAFETY: a `Watch` holds these words; the second call ends the program at once.
    unsafe {
        write(2, words.cast(), length);
        _exit(101)
    }
}
