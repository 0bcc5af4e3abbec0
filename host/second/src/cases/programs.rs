//! The programs of the longer cases: marked examples of 01, and others by the
//! names of document 004.

/// M1 of 01.
pub const M1: [u8; 4] = [0x85, 0x83, 0x15, 0x00];

/// M4 of 01.
pub const M4: [u8; 11] = [
    0x83, 0x37, 0x00, 0x3D, 0x06, 0x00, 0x33, 0x00, 0x1A, 0x3C, 0x01,
];

/// M9 of 01.
pub const M9: [u8; 5] = [0xC9, 0x01, 0xFF, 0xFF, 0x20];

/// Accesses up to the last byte of the largest data memory, each program ending
/// with one past it.
pub const AT_THE_END_OF_DATA: [&str; 3] = [
    "
        push-u8 55
        st-u8--imm16 65534
        push-values 48879 533 65000
        st-u16-offs
        ld-u16-imm16 65533
        push-u8 0
        ld-u8--offs-imm16 65534
        ld-u16-imm16 65534",
    "
        push-values 65534 0 1
        dcopy
        push-values 0 65535 65535
        dcopy
        push-values 4 0 65531
        pcopy
        ld-u8--imm16 65535",
    "
        push-values 65535 0 0
        dcopy
        push-values 65534 1 0
        dcopy
        push-values 65535 0 1
        dcopy",
];

/// Counts a number in data 0 and 1 down to nothing.
pub const COUNT_DOWN: &str = "
        push-values 65535
    store:
        st-u16-imm8 0
        jump-imm8-if again
        halt
    again:
        ld-u16-imm8 0
        dec
        jump-imm8 store";

/// Counts down so often as data 2 says.
pub const COUNT_DOWN_AGAIN: &str = "
    outer:
        push-values 65535
    inner:
        st-u16-imm8 0
        jump-imm8-if again
        ld-u8--imm8 2
        dec
        st-u8--imm8 2
        jump-imm8-if outer
        halt
    again:
        ld-u16-imm8 0
        dec
        jump-imm8 inner";

/// The greatest common divisor of data 0 and 1 and of data 2 and 3.
pub const DIVISOR: &str = "
    loop:
        ld-u16-imm8 0
        ld-u16-imm8 2
        eq
        jump-imm8-if done
        ld-u16-imm8 0
        ld-u16-imm8 2
        lt
        jump-imm8-if first
        ld-u16-imm8 0
        ld-u16-imm8 2
        sub
        st-u16-imm8 2
        discard
        jump-imm8 loop
    first:
        ld-u16-imm8 2
        ld-u16-imm8 0
        sub
        st-u16-imm8 0
        discard
        jump-imm8 loop
    done:
        ld-u16-imm8 0
        syscall-imm8 0";

/// Copies itself into data from 2 on, then leaves the sum of the bytes in data 0
/// and 1. Data 40 and 41 hold the place it has come to.
pub const SUM_OF_ITSELF: &str = "
        push-values end 0 2
        pcopy
        push-u8 0
        st-u16-imm8 0
        discard
    loop:
        dec
        st-u8--imm8 40
        ld-u8--imm8 40
        ld-u8
        ld-u16-imm8 0
        add
        st-u16-imm8 0
        discard
        st-u8--imm8 41
        gt--imm8 2
        jump-imm8-if-not done
        ld-u8--imm8 41
        jump-imm16 loop
    done:
        halt
    end:";

/// Doubles a number three times, by calls with the address in the code and on
/// the stack.
pub const SUBROUTINE: &str = "
        push-values 300
        call-imm8 double
        call-imm16 double
        push-u8 double
        call
        ne--imm16 2400
        push-u8 end
        jump-if
        halt
    double:
        swap
        shl-imm4 1
        swap
        jump
    end:
        halt";
