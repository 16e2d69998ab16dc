// A memcpy, memmove and memset that count their calls and bytes, for LD_PRELOAD on x86-64.
// At the end of the process the counts go to standard error: copies, bytes copied, fills, bytes filled.

use std::arch::asm;
use std::sync::atomic::{AtomicU64, Ordering::Relaxed};

struct Count {
    calls: AtomicU64,
    bytes: AtomicU64,
}

impl Count {
    const fn zero() -> Self {
        Count {
            calls: AtomicU64::new(0),
            bytes: AtomicU64::new(0),
        }
    }

    fn add(&self, bytes: usize) {
        self.calls.fetch_add(1, Relaxed);
        self.bytes.fetch_add(bytes as u64, Relaxed);
    }

    fn both(&self) -> (u64, u64) {
        (self.calls.load(Relaxed), self.bytes.load(Relaxed))
    }
}

static COPIES: Count = Count::zero();
static FILLS: Count = Count::zero();

/// # Safety
/// As for C's memcpy.
#[no_mangle]
pub unsafe extern "C" fn memcpy(to: *mut u8, from: *const u8, n: usize) -> *mut u8 {
    COPIES.add(n);
    // An instruction and no loop: the compiler would make a loop a call of memcpy.
    asm!("rep movsb", inout("rcx") n => _, inout("rdi") to => _, inout("rsi") from => _);
    to
}

/// # Safety
/// As for C's memmove.
#[no_mangle]
pub unsafe extern "C" fn memmove(to: *mut u8, from: *const u8, n: usize) -> *mut u8 {
    if (to as usize).wrapping_sub(from as usize) >= n {
        return memcpy(to, from, n);
    }
    // The end of the source lies under the target: from the last byte down.
    COPIES.add(n);
    asm!(
        "std",
        "rep movsb",
        "cld",
        inout("rcx") n => _,
        inout("rdi") to.wrapping_add(n).wrapping_sub(1) => _,
        inout("rsi") from.wrapping_add(n).wrapping_sub(1) => _,
    );
    to
}

/// # Safety
/// As for C's memset.
#[no_mangle]
pub unsafe extern "C" fn memset(to: *mut u8, byte: i32, n: usize) -> *mut u8 {
    FILLS.add(n);
    asm!("rep stosb", inout("rcx") n => _, inout("rdi") to => _, in("al") byte as u8);
    to
}

extern "C" fn tell() {
    let ((copies, copied), (fills, filled)) = (COPIES.both(), FILLS.both());
    eprintln!("{copies} {copied} {fills} {filled}");
}

#[used]
#[link_section = ".fini_array"]
static AT_THE_END: extern "C" fn() = tell;
