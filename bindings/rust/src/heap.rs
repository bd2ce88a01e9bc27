//! The heap that libpp_c.a needs, over the C library's, so that no C compiler is needed.
use std::ffi::c_void;

#[repr(C)]
struct Tried {
    ok: bool,
    block: *mut c_void,
}

extern "C" {
    fn malloc(size: usize) -> *mut c_void;
    fn realloc(block: *mut c_void, size: usize) -> *mut c_void;
    fn free(block: *mut c_void);
}

// A pointer to no block isn't null either. An alignment is at most 16.
fn answer(block: *mut c_void) -> Tried {
    if block.is_null() {
        Tried {
            ok: false,
            block: 16 as *mut c_void,
        }
    } else {
        Tried { ok: true, block }
    }
}

fn at_least(size: usize, alignment: usize) -> usize {
    if size == 0 {
        alignment
    } else {
        size
    }
}

unsafe extern "C" fn alloc(size: usize, alignment: usize) -> Tried {
    answer(malloc(at_least(size, alignment)))
}

unsafe extern "C" fn resize(
    block: *mut c_void,
    _kept: usize,
    size: usize,
    alignment: usize,
) -> Tried {
    answer(realloc(block, at_least(size, alignment)))
}

unsafe extern "C" fn dealloc(block: *mut c_void) {
    free(block)
}

// Gives a function the name by which the library calls it. The name is weak, so that another heap in the program takes its
// place, and no shared library in Rust exports it: `no_mangle` gives neither.
macro_rules! name {
    ($jump:literal, $function:path, $name:literal) => {
        std::arch::global_asm!(
            concat!(".weak ", $name),
            concat!(".type ", $name, ", %function"),
            concat!($name, ": ", $jump, " {}"),
            sym $function
        );
    };
}

macro_rules! name_all {
    ($jump:literal) => {
        name!($jump, alloc, "rattle_alloc");
        name!($jump, resize, "rattle_realloc");
        name!($jump, dealloc, "rattle_dealloc");
    };
}

#[cfg(target_arch = "x86_64")]
name_all!("jmp");
#[cfg(target_arch = "aarch64")]
name_all!("b");
