//! The stack that a call takes: it is made on a stack of its own, which is painted before and looked at afterwards.

use std::arch::asm;

/// Eight bytes that no call leaves by chance.
const PAINT: u64 = 0xA5C3_96E1_D2B4_8778;
/// Words of the painted stack: 256 KiB, several times what any call takes.
const WORDS: usize = 1 << 15;
/// So many arguments stand in registers, the others on the stack.
const REGISTERS: usize = 6;

/// What a call answered in the first register, and the bytes of stack that it took, with the address that it returned to.
pub struct Taken {
    pub answer: u64,
    pub bytes: usize,
}

/// Makes the call on a painted stack.
///
/// # Safety
///
/// The function has C's form, and the arguments are numbers or pointers that it may be handed.
pub unsafe fn taken(function: *const (), arguments: &[usize]) -> Taken {
    // In words of 16 bytes, since that is how a stack is aligned where a function is called.
    let mut stack = vec![u128::from(PAINT) << 64 | u128::from(PAINT); WORDS / 2];
    let stack: &mut [u64] = std::slice::from_raw_parts_mut(stack.as_mut_ptr().cast(), WORDS);
    let mut registers = [0; REGISTERS];
    let (first, rest) = arguments.split_at(arguments.len().min(REGISTERS));
    registers[..first.len()].copy_from_slice(first);
    let top = WORDS - rest.len().next_multiple_of(2);
    stack[top..].iter_mut().zip(rest).for_each(|(word, &argument)| *word = argument as u64);
    let answer;
    asm!(
        "xchg rsp, r12",
        "call r13",
        "mov rsp, r12",
        inout("r12") stack.as_mut_ptr().add(top) => _,
        in("r13") function,
        in("rdi") registers[0],
        in("rsi") registers[1],
        in("rdx") registers[2],
        in("rcx") registers[3],
        in("r8") registers[4],
        in("r9") registers[5],
        lateout("rax") answer,
        clobber_abi("C"),
    );
    let kept = stack.iter().take_while(|&&word| word == PAINT).count();
    assert!(kept > 0, "the painted stack is too small");
    Taken { answer, bytes: 8 * (top - kept) }
}

#[cfg(test)]
mod tests {
    use super::*;

    extern "C" fn digits(a: u8, b: u8, c: u8, d: u8, e: u8, f: u8, g: u8, h: u8) -> u64 {
        [a, b, c, d, e, f, g, h].iter().fold(0, |sum, &digit| 10 * sum + u64::from(digit))
    }

    extern "C" fn filled(size: usize) -> u64 {
        let bytes = std::hint::black_box([1u8; 4096]);
        bytes.iter().map(|&byte| u64::from(byte)).take(size).sum()
    }

    #[test]
    fn arguments_stand_where_c_has_them() {
        let taken = unsafe { taken(digits as *const (), &[1, 2, 3, 4, 5, 6, 7, 8]) };
        assert_eq!(taken.answer, 12_345_678);
    }

    #[test]
    fn a_local_array_is_seen() {
        let taken = unsafe { taken(filled as *const (), &[7]) };
        assert_eq!(taken.answer, 7);
        assert!((4096..3 * 4096).contains(&taken.bytes), "{}", taken.bytes);
    }
}
