//! What valgrind is told of memory. Without valgrind this does nothing.

use std::arch::asm;

/// Of memcheck, as its header names them.
const MAKE_NO_ACCESS: usize = 0x4d43_0000;
const MAKE_DEFINED: usize = 0x4d43_0002;

/// Nobody may read or write these until they are allowed again.
pub fn forbid<T>(elements: &[T]) {
    request(MAKE_NO_ACCESS, elements);
}

pub fn allow<T>(elements: &[T]) {
    request(MAKE_DEFINED, elements);
}

fn request<T>(kind: usize, elements: &[T]) {
    let place = elements.as_ptr() as usize;
    let words = [kind, place, size_of_val(elements), 0, 0, 0];
    // SAFETY: four rotations by 128 bits in all, and an exchange of a register with itself,
    // change nothing; valgrind knows them and reads the words.
    unsafe {
        asm!(
            "rol rdi, 3",
            "rol rdi, 13",
            "rol rdi, 61",
            "rol rdi, 51",
            "xchg rbx, rbx",
            in("rax") words.as_ptr(),
            inout("rdx") 0_usize => _,
            options(nostack),
        );
    }
}
