//! Document 004's opcode table as data: one row for each legal format, its bit
//! pattern and name as they stand there, and what 01's section "Instructions"
//! says of its operands and its effect.
//!
//! The patterns are read as 004 says: `0` and `1` are literal bits, a letter
//! names the bits of a number, the most significant bit of a byte stands first,
//! the least significant byte of a number stands first. Rows that 004 leaves
//! empty, and the extended opcodes that 01 leaves out, are not in the table:
//! their first bytes are illegal.

use Operation::*;

/// One row of the table.
pub struct Opcode {
    /// The bit pattern, its bytes separated by `_`.
    pub format: &'static str,
    /// The name in document 004; 06 is `jump`, as 01 has it.
    pub name: &'static str,
    /// What the operation works on, in the order in which its computation names
    /// it: `a`, `b` and `c` are taken from the stack, `a` first, and `x` is the
    /// number in the code.
    pub operands: &'static str,
    /// What the operation does with these operands.
    pub operation: Operation,
}

/// What an instruction does with its operands (p, q, r in the order of
/// [`Opcode::operands`]).
#[derive(Clone, Copy)]
pub enum Operation {
    /// Halt.
    Halt,
    /// Drop p.
    Discard,
    /// Copy r bytes to data p from q in the memory named; push p + r.
    Copy(Memory),
    /// Push p, then q.
    Swap,
    /// Push the address of the next instruction, go to p.
    Call,
    /// Go to p.
    Jump,
    /// Go to p if q is not 0.
    JumpIf,
    /// Go to p if q is 0.
    JumpIfNot,
    /// Invoke system function p.
    SystemCall,
    /// Invoke extension function p.
    ExtensionCall,
    /// Push what the function makes of p.
    One(fn(u16) -> u16),
    /// Push what the function makes of p and q.
    Two(fn(u16, u16) -> u16),
    /// Push the so many bytes of data at the sum of all operands.
    Load(usize),
    /// Store the last operand in so many bytes of data at the sum of the others;
    /// push what was stored.
    Store(usize),
    /// Push p.
    Push,
    /// Push the values in the code.
    PushValues,
}

/// The memory that a copy reads.
#[derive(Clone, Copy)]
pub enum Memory {
    /// Data memory.
    Data,
    /// Program memory.
    Program,
}

/// The table, in the order of the codes.
#[rustfmt::skip]
pub static OPCODES: [Opcode; 93] = [
    row("00000000", "halt", "", Halt),
    row("00000001", "discard", "a", Discard),
    row("00000010", "dcopy", "abc", Copy(Memory::Data)),
    row("00000011", "pcopy", "abc", Copy(Memory::Program)),
    row("00000100", "swap", "ab", Swap),
    row("00000101", "call", "a", Call),
    row("00000110", "jump", "a", Jump),
    row("00000111", "jump-if", "ab", JumpIf),
    row("00001000", "jump-if-not", "ab", JumpIfNot),
    row("00001001", "syscall", "a", SystemCall),
    row("00001010", "extcall", "a", ExtensionCall),
    row("00001011", "eq", "ab", Two(eq)),
    row("00001100", "ne", "ab", Two(ne)),
    row("00001101", "le", "ab", Two(le)),
    row("00001110", "gt", "ab", Two(gt)),
    row("00001111", "lt", "ab", Two(lt)),
    row("00010000", "ge", "ab", Two(ge)),
    row("00010001", "and", "ab", Two(and)),
    row("00010010", "or", "ab", Two(or)),
    row("00010011", "xor", "ab", Two(xor)),
    row("00010100", "add", "ab", Two(add)),
    row("00010101", "sub", "ab", Two(sub)),
    row("00010110", "mul", "ab", Two(mul)),
    row("00010111", "shl", "ab", Two(shl)),
    row("00011000", "shr", "ab", Two(shr)),
    row("00011001", "inc", "a", One(inc)),
    row("00011010", "dec", "a", One(dec)),
    row("00011011", "not", "a", One(not)),
    row("00011100", "neg", "a", One(neg)),
    row("00011101", "ld-u8", "a", Load(1)),
    row("00011110", "ld-u16", "a", Load(2)),
    row("00011111", "ld-u8--offs", "ab", Load(1)),
    row("00100000", "ld-u16-offs", "ab", Load(2)),
    row("00100001", "st-u8", "ab", Store(1)),
    row("00100010", "st-u16", "ab", Store(2)),
    row("00100011", "st-u8--offs", "abc", Store(1)),
    row("00100100", "st-u16-offs", "abc", Store(2)),
    row("00100101_xxxxxxxx", "eq--imm8", "ax", Two(eq)),
    row("00100110_xxxxxxxx", "ne--imm8", "ax", Two(ne)),
    row("00100111_xxxxxxxx", "le--imm8", "ax", Two(le)),
    row("00101000_xxxxxxxx", "gt--imm8", "ax", Two(gt)),
    row("00101001_xxxxxxxx", "lt--imm8", "ax", Two(lt)),
    row("00101010_xxxxxxxx", "ge--imm8", "ax", Two(ge)),
    row("00101011_xxxxxxxx", "and-imm8", "ax", Two(and)),
    row("00101100_xxxxxxxx", "or--imm8", "ax", Two(or)),
    row("00101101_xxxxxxxx", "xor-imm8", "ax", Two(xor)),
    row("00101110_xxxxxxxx", "add-imm8", "ax", Two(add)),
    row("00101111_xxxxxxxx", "sub-imm8", "ax", Two(sub)),
    row("00110000_xxxxxxxx", "mul-imm8", "ax", Two(mul)),
    row("00110001_0000xxxx", "shl-imm4", "ax", Two(shl)),
    row("00110010_0000xxxx", "shr-imm4", "ax", Two(shr)),
    row("00110011_xxxxxxxx", "ld-u8--imm8", "x", Load(1)),
    row("00110100_xxxxxxxx", "ld-u16-imm8", "x", Load(2)),
    row("00110101_xxxxxxxx", "ld-u8--offs-imm8", "ax", Load(1)),
    row("00110110_xxxxxxxx", "ld-u16-offs-imm8", "ax", Load(2)),
    row("00110111_xxxxxxxx", "st-u8--imm8", "xa", Store(1)),
    row("00111000_xxxxxxxx", "st-u16-imm8", "xa", Store(2)),
    row("00111001_xxxxxxxx", "st-u8--offs-imm8", "axb", Store(1)),
    row("00111010_xxxxxxxx", "st-u16-offs-imm8", "axb", Store(2)),
    row("00111011_xxxxxxxx", "call-imm8", "x", Call),
    row("00111100_xxxxxxxx", "jump-imm8", "x", Jump),
    row("00111101_xxxxxxxx", "jump-imm8-if", "xa", JumpIf),
    row("00111110_xxxxxxxx", "jump-imm8-if-not", "xa", JumpIfNot),
    row("00111111_xxxxxxxx", "syscall-imm8", "x", SystemCall),
    row("01000000_xxxxxxxx", "extcall-imm8", "x", ExtensionCall),
    row("01000001_xxxxxxxx_xxxxxxxx", "eq--imm16", "ax", Two(eq)),
    row("01000010_xxxxxxxx_xxxxxxxx", "ne--imm16", "ax", Two(ne)),
    row("01000011_xxxxxxxx_xxxxxxxx", "le--imm16", "ax", Two(le)),
    row("01000100_xxxxxxxx_xxxxxxxx", "gt--imm16", "ax", Two(gt)),
    row("01000101_xxxxxxxx_xxxxxxxx", "lt--imm16", "ax", Two(lt)),
    row("01000110_xxxxxxxx_xxxxxxxx", "ge--imm16", "ax", Two(ge)),
    row("01000111_xxxxxxxx_xxxxxxxx", "and-imm16", "ax", Two(and)),
    row("01001000_xxxxxxxx_xxxxxxxx", "or--imm16", "ax", Two(or)),
    row("01001001_xxxxxxxx_xxxxxxxx", "xor-imm16", "ax", Two(xor)),
    row("01001010_xxxxxxxx_xxxxxxxx", "add-imm16", "ax", Two(add)),
    row("01001011_xxxxxxxx_xxxxxxxx", "sub-imm16", "ax", Two(sub)),
    row("01001100_xxxxxxxx_xxxxxxxx", "mul-imm16", "ax", Two(mul)),
    row("01001101_xxxxxxxx_xxxxxxxx", "ld-u8--imm16", "x", Load(1)),
    row("01001110_xxxxxxxx_xxxxxxxx", "ld-u16-imm16", "x", Load(2)),
    row("01001111_xxxxxxxx_xxxxxxxx", "ld-u8--offs-imm16", "ax", Load(1)),
    row("01010000_xxxxxxxx_xxxxxxxx", "ld-u16-offs-imm16", "ax", Load(2)),
    row("01010001_xxxxxxxx_xxxxxxxx", "st-u8--imm16", "xa", Store(1)),
    row("01010010_xxxxxxxx_xxxxxxxx", "st-u16-imm16", "xa", Store(2)),
    row("01010011_xxxxxxxx_xxxxxxxx", "st-u8--offs-imm16", "axb", Store(1)),
    row("01010100_xxxxxxxx_xxxxxxxx", "st-u16-offs-imm16", "axb", Store(2)),
    row("01010101_xxxxxxxx_xxxxxxxx", "call-imm16", "x", Call),
    row("01010110_xxxxxxxx_xxxxxxxx", "jump-imm16", "x", Jump),
    row("01010111_xxxxxxxx_xxxxxxxx", "jump-imm16-if", "xa", JumpIf),
    row("01011000_xxxxxxxx_xxxxxxxx", "jump-imm16-if-not", "xa", JumpIfNot),
    row("01011001_xxxxxxxx_xxxxxxxx", "syscall-imm16", "x", SystemCall),
    row("01011010_xxxxxxxx_xxxxxxxx", "extcall-imm16", "x", ExtensionCall),
    row("10xxxxxx", "push-u8", "x", Push),
    row("11dcbaxx", "push-values", "", PushValues),
];

const fn row(
    format: &'static str,
    name: &'static str,
    operands: &'static str,
    operation: Operation,
) -> Opcode {
    Opcode {
        format,
        name,
        operands,
        operation,
    }
}

/// One bit of a format: the byte it is in, and its place there (0 is the least
/// significant).
struct Bit {
    byte: usize,
    place: usize,
}

impl Opcode {
    /// The row whose literal bits are those of a first byte; none where the
    /// byte is illegal.
    pub fn of(first: u8) -> Option<&'static Opcode> {
        thread_local! {
            static ROWS: [Option<&'static Opcode>; 256] =
                std::array::from_fn(|first| OPCODES.iter().find(|row| row.matches(&[first as u8])));
        }
        ROWS.with(|rows| rows[usize::from(first)])
    }

    /// The code by which 01 names the instruction: its first byte with all
    /// letters 0, so 80 for all of 80 to BF and C0 for all of C0 to FF.
    pub fn code(&self) -> u8 {
        self.bits('1')
            .filter(|bit| bit.byte == 0)
            .map(|bit| 1 << bit.place)
            .sum()
    }

    /// The number of bytes in the format.
    pub fn length(&self) -> usize {
        self.format.split('_').count()
    }

    /// The number of values taken from the stack.
    pub fn taken(&self) -> usize {
        self.operands
            .chars()
            .filter(|&operand| operand != 'x')
            .count()
    }

    /// Whether the literal bits of the format are those of the bytes, as far as
    /// there are bytes.
    pub fn matches(&self, bytes: &[u8]) -> bool {
        let agree = |symbol, value| {
            self.bits(symbol)
                .filter(|bit| bit.byte < bytes.len())
                .all(|bit| bytes[bit.byte] >> bit.place & 1 == value)
        };
        agree('0', 0) && agree('1', 1)
    }

    /// The number in the bits of a letter.
    pub fn field(&self, letter: char, bytes: &[u8]) -> u16 {
        self.bits(letter)
            .enumerate()
            .map(|(weight, bit)| u16::from(bytes[bit.byte] >> bit.place & 1) << weight)
            .sum()
    }

    /// Whether a number fits the bits of a letter.
    pub fn fits(&self, letter: char, number: u16) -> bool {
        u32::from(number) >> self.bits(letter).count() == 0
    }

    /// The bytes of the format with a number in the bits of each letter.
    pub fn spell(&self, number_of: impl Fn(char) -> u16) -> Vec<u8> {
        let mut bytes = vec![0; self.length()];
        for bit in self.bits('1') {
            bytes[bit.byte] |= 1 << bit.place;
        }
        for letter in ['x', 'a', 'b', 'c', 'd'] {
            for (weight, bit) in self.bits(letter).enumerate() {
                bytes[bit.byte] |= ((number_of(letter) >> weight & 1) as u8) << bit.place;
            }
        }
        bytes
    }

    /// The bits of the format that have a symbol, the least significant first.
    fn bits(&self, symbol: char) -> impl Iterator<Item = Bit> {
        self.format
            .split('_')
            .enumerate()
            .flat_map(move |(byte, octet)| {
                octet
                    .chars()
                    .rev()
                    .enumerate()
                    .filter(move |&(_, at_place)| at_place == symbol)
                    .map(move |(place, _)| Bit { byte, place })
            })
    }
}

fn eq(a: u16, b: u16) -> u16 {
    u16::from(a == b)
}

fn ne(a: u16, b: u16) -> u16 {
    u16::from(a != b)
}

fn le(a: u16, b: u16) -> u16 {
    u16::from(a <= b)
}

fn gt(a: u16, b: u16) -> u16 {
    u16::from(a > b)
}

fn lt(a: u16, b: u16) -> u16 {
    u16::from(a < b)
}

fn ge(a: u16, b: u16) -> u16 {
    u16::from(a >= b)
}

fn and(a: u16, b: u16) -> u16 {
    a & b
}

fn or(a: u16, b: u16) -> u16 {
    a | b
}

fn xor(a: u16, b: u16) -> u16 {
    a ^ b
}

fn add(a: u16, b: u16) -> u16 {
    a.wrapping_add(b)
}

fn sub(a: u16, b: u16) -> u16 {
    a.wrapping_sub(b)
}

fn mul(a: u16, b: u16) -> u16 {
    a.wrapping_mul(b)
}

/// 01: "0 where b is 16 or more".
fn shl(a: u16, b: u16) -> u16 {
    a.checked_shl(b.into()).unwrap_or(0)
}

/// 01: "0 where b is 16 or more".
fn shr(a: u16, b: u16) -> u16 {
    a.checked_shr(b.into()).unwrap_or(0)
}

fn inc(a: u16) -> u16 {
    a.wrapping_add(1)
}

fn dec(a: u16) -> u16 {
    a.wrapping_sub(1)
}

/// 01: "not flips all sixteen bits".
fn not(a: u16) -> u16 {
    !a
}

fn neg(a: u16) -> u16 {
    a.wrapping_neg()
}

#[cfg(test)]
mod tests {
    use super::*;

    #[test]
    fn a_first_byte_matches_at_most_one_row() {
        for first in 0..=255 {
            let rows = OPCODES.iter().filter(|row| row.matches(&[first])).count();
            let legal = first <= 0x5A || first >= 0x80;
            assert_eq!(rows, usize::from(legal), "{first:02X}");
        }
    }

    #[test]
    fn the_rows_stand_in_the_order_of_their_codes() {
        let codes: Vec<u8> = OPCODES.iter().map(Opcode::code).collect();
        let expected: Vec<u8> = (0..=0x5A).chain([0x80, 0xC0]).collect();
        assert_eq!(codes, expected);
    }

    #[test]
    fn names_stand_at_the_codes_of_01() {
        for (code, name) in [
            (0x00, "halt"),
            (0x04, "swap"),
            (0x06, "jump"),
            (0x0B, "eq"),
            (0x15, "sub"),
            (0x1A, "dec"),
            (0x1F, "ld-u8--offs"),
            (0x24, "st-u16-offs"),
            (0x25, "eq--imm8"),
            (0x31, "shl-imm4"),
            (0x33, "ld-u8--imm8"),
            (0x37, "st-u8--imm8"),
            (0x3E, "jump-imm8-if-not"),
            (0x41, "eq--imm16"),
            (0x4D, "ld-u8--imm16"),
            (0x54, "st-u16-offs-imm16"),
            (0x5A, "extcall-imm16"),
            (0x85, "push-u8"),
            (0xC9, "push-values"),
        ] {
            assert_eq!(Opcode::of(code).unwrap().name, name);
        }
    }

    #[test]
    fn a_number_has_its_low_byte_first() {
        let jump = Opcode::of(0x56).unwrap();
        assert_eq!(jump.field('x', &[0x56, 0x34, 0x12]), 0x1234);
        assert_eq!(jump.spell(|_| 0x1234), [0x56, 0x34, 0x12]);
        assert!(jump.fits('x', 65_535));
    }

    #[test]
    fn a_field_is_as_wide_as_its_letters() {
        let push = Opcode::of(0x80).unwrap();
        assert!(push.fits('x', 63) && !push.fits('x', 64));
        let shift = Opcode::of(0x31).unwrap();
        assert!(shift.fits('x', 15) && !shift.fits('x', 16));
        let halt = Opcode::of(0x00).unwrap();
        assert!(halt.fits('x', 0) && !halt.fits('x', 1));
    }

    #[test]
    fn shifts_by_sixteen_or_more_give_zero() {
        assert_eq!((shl(1, 15), shl(1, 16), shl(1, 65_535)), (32_768, 0, 0));
        assert_eq!(
            (shr(32_768, 15), shr(32_768, 16), shr(65_535, 32)),
            (1, 0, 0)
        );
    }
}
