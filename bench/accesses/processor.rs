//! The processor's own name, by which an emulated one is known.

use std::arch::x86_64::{__cpuid, CpuidResult};

const LAST_LEAF: u32 = 0x8000_0000;
const NAME: std::ops::RangeInclusive<u32> = 0x8000_0002..=0x8000_0004;

pub fn name() -> String {
    if leaf(LAST_LEAF).eax < *NAME.end() {
        return "a processor without a name".into();
    }
    let registers = NAME.map(leaf).flat_map(|leaf| [leaf.eax, leaf.ebx, leaf.ecx, leaf.edx]);
    let bytes: Vec<u8> = registers.flat_map(u32::to_le_bytes).take_while(|&byte| byte != 0).collect();
    String::from_utf8_lossy(&bytes).trim().to_string()
}

/// Whether a program plays the processor.
pub fn is_emulated(name: &str) -> bool {
    ["QEMU", "TCG"].iter().any(|emulator| name.contains(emulator))
}

// Whether the question is safe depends on the compiler's age.
#[allow(unused_unsafe)]
fn leaf(number: u32) -> CpuidResult {
    // Safety: every x86-64 processor has the instruction.
    unsafe { __cpuid(number) }
}
