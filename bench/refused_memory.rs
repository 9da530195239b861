//! A library that is loaded before the C library, and refuses the Nth request for memory, or all from the Nth on.
//!
//! It counts the calls of `malloc` and `realloc`; `calloc` and the aligned ones go to the C library uncounted. `bench/refused`
//! compiles it, and says by the environment what is refused:
//!
//! - `REFUSE_COUNT`: a file of 8 bytes, whose number is that of the calls so far
//! - `REFUSE`: N, from 1; 0 refuses none
//! - `REFUSE_ALL`: set where all calls from the Nth on are refused
//!
//! It allocates nothing. It is `unsafe` since it is an allocator; no crate of this repository links to it.
#![no_std]

use core::ffi::{c_char, c_int, c_long, c_void};
use core::ptr::null_mut;
use core::sync::atomic::{AtomicBool, AtomicI64, AtomicPtr, Ordering::SeqCst};

#[link(name = "c")]
unsafe extern "C" {
    fn __libc_malloc(size: usize) -> *mut c_void;
    fn __libc_realloc(old: *mut c_void, size: usize) -> *mut c_void;
    fn getenv(name: *const c_char) -> *const c_char;
    fn atol(text: *const c_char) -> c_long;
    fn open(path: *const c_char, flags: c_int, ...) -> c_int;
    fn mmap(at: *mut c_void, size: usize, protection: c_int, flags: c_int, file: c_int, offset: i64) -> *mut c_void;
    fn abort() -> !;
}

// as Linux has them
const O_RDWR: c_int = 2;
const PROT_READ_WRITE: c_int = 3;
const MAP_SHARED: c_int = 1;

static NTH: AtomicI64 = AtomicI64::new(0);
static ALL: AtomicBool = AtomicBool::new(false);
/// Where calls are counted until the file is there: the loader asks for memory before `begin`.
static EARLY: AtomicI64 = AtomicI64::new(0);
/// The file's number; none before `begin`.
static SEEN: AtomicPtr<AtomicI64> = AtomicPtr::new(null_mut());

#[used]
#[unsafe(link_section = ".init_array")]
static BEGIN: extern "C" fn() = begin;

/// Reads the environment once the library is loaded. Without a file to count in it ends the process.
extern "C" fn begin() {
    unsafe {
        let (file, nth) = (getenv(c"REFUSE_COUNT".as_ptr()), getenv(c"REFUSE".as_ptr()));
        if file.is_null() || nth.is_null() {
            abort();
        }
        let seen = mmap(null_mut(), 8, PROT_READ_WRITE, MAP_SHARED, open(file, O_RDWR), 0);
        // what mmap answers where it fails
        if seen as isize == -1 {
            abort();
        }
        ALL.store(!getenv(c"REFUSE_ALL".as_ptr()).is_null(), SeqCst);
        NTH.store(atol(nth), SeqCst);
        SEEN.store(seen.cast(), SeqCst);
    }
}

/// Counts a call; whether it is one that is refused.
fn refused() -> bool {
    let seen = SEEN.load(SeqCst);
    if seen.is_null() {
        EARLY.fetch_add(1, SeqCst);
        return false;
    }
    let now = unsafe { (*seen).fetch_add(1, SeqCst) } + 1;
    let nth = NTH.load(SeqCst);
    nth != 0 && (now == nth || ALL.load(SeqCst) && now > nth)
}

/// # Safety
/// That of the C library's `malloc`.
#[unsafe(no_mangle)]
pub unsafe extern "C" fn malloc(size: usize) -> *mut c_void {
    if refused() { null_mut() } else { unsafe { __libc_malloc(size) } }
}

/// # Safety
/// That of the C library's `realloc`.
#[unsafe(no_mangle)]
pub unsafe extern "C" fn realloc(old: *mut c_void, size: usize) -> *mut c_void {
    if refused() {
        null_mut()
    } else {
        unsafe { __libc_realloc(old, size) }
    }
}

#[panic_handler]
fn panic(_: &core::panic::PanicInfo) -> ! {
    unsafe { abort() }
}
