//! What an x86-64 processor says of itself.

use std::arch::x86_64::{__cpuid, CpuidResult};

/// The brand that the processor gives itself.
pub fn name() -> String {
    if leaf(0x8000_0000).eax < 0x8000_0004 {
        return "x86-64 without a name".to_string();
    }
    let brand: Vec<u8> = (0x8000_0002..=0x8000_0004)
        .flat_map(|number| bytes(leaf(number)))
        .collect();
    text(&brand)
}

/// That the processor is an emulated one.
pub fn remark() -> Option<String> {
    emulator().map(|emulator| {
        format!("This is the emulator {emulator}: its ratios say little about a real processor.")
    })
}

/// The name of the emulator: the brand or the signature is that of one that is known.
fn emulator() -> Option<&'static str> {
    let told = format!("{} {}", name(), signature());
    let known = [
        ("TCG", "qemu"),
        ("FEXIFEXIEMU", "FEX"),
        ("Box64", "Box64"),
        ("VirtualApple", "Rosetta"),
    ];
    let found = known.iter().find(|(mark, _)| told.contains(mark));
    found.map(|&(_, emulator)| emulator)
}

/// What stands above a virtual processor signs with these bytes.
fn signature() -> String {
    let hypervisor = leaf(1).ecx >> 31 & 1 == 1;
    if !hypervisor {
        return String::new();
    }
    text(&bytes(leaf(0x4000_0000))[4..])
}

#[allow(unused_unsafe)] // newer compilers call it safe
fn leaf(number: u32) -> CpuidResult {
    // SAFETY: every x86-64 processor has the instruction.
    unsafe { __cpuid(number) }
}

fn bytes(leaf: CpuidResult) -> Vec<u8> {
    let numbers = [leaf.eax, leaf.ebx, leaf.ecx, leaf.edx];
    numbers.iter().flat_map(|n| n.to_le_bytes()).collect()
}

fn text(bytes: &[u8]) -> String {
    let text = String::from_utf8_lossy(bytes);
    text.trim_matches(|c: char| c == '\0' || c.is_whitespace())
        .to_string()
}
