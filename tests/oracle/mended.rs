//! The mended profile of document 02, R-4: its seven rows over the module's own answers, the last of which stand where
//! no row does. tests/oracle/build puts this file into the module, where a copy of its step asks here.
use super::{F_READS_MEM, Info060};

/// Class word, use mask and def mask of an opcode.
pub type Answer = (u16, u16, u16);

/// Class 1, one clock, VARIABLE and UNCLASSIFIED.
const UNCLASSIFIED: u16 = 0x2205;

/// The module's own answer.
pub fn of_crate(op: u16) -> Answer {
    let (uses, defs) = super::reg_masks_060(op);
    (super::info_060(op).0, uses, defs)
}

pub fn answer(op: u16) -> Answer {
    let (word, uses, defs) = of_crate(op);
    let (x, y) = (op >> 9 & 7, op & 7);
    // 1011 xxx 1ss mmm yyy, of a size that there is: what is no size is CMPA
    let eor_or_cmpm = op & 0xF100 == 0xB100 && op & 0x00C0 != 0x00C0;
    match op {
        // EOR between data registers also defines its destination
        _ if eor_or_cmpm && op & 0x0038 == 0x0000 => (word, uses, defs | 1 << y),
        // EXTB.L uses and defines its data register only
        0x49C0..=0x49C7 => (word, 1 << y, 1 << y),
        // CMPM uses and defines both address registers, and reads memory
        _ if eor_or_cmpm && op & 0x0038 == 0x0008 => {
            let both = 1 << (8 + x) | 1 << (8 + y);
            (word | F_READS_MEM, both, both)
        }
        // MOVES
        0x0E00..=0x0EBF => (UNCLASSIFIED, uses, defs),
        // UNPK, 818y or 8188 + y, as PACK, 814y or 8148 + y
        _ if op & 0xF1F0 == 0x8180 => (super::info_060(op ^ 0x00C0).0, uses, defs),
        // CHK on D4, long and word
        0x4900..=0x493F | 0x4980..=0x49BF => (word_of_other_registers(op), uses, defs),
        // LEA into A4
        0x49C8..=0x49FF => (word_of_other_registers(op), uses, defs),
        _ => (word, uses, defs),
    }
}

// The class word of the same opcode with another register than 4 in bits 9 to 11: all of these have the same.
fn word_of_other_registers(op: u16) -> u16 {
    let words = [0, 1, 2, 3, 5, 6, 7].map(|x| super::info_060(op & !0x0E00 | x << 9).0);
    assert_eq!(words, [words[0]; 7], "the other registers of {op:04X} have not one class word");
    words[0]
}

// ---- what the copy of the step calls, by the module's names

pub fn info_060(op: u16) -> Info060 {
    Info060(answer(op).0)
}

pub fn reg_masks_060(op: u16) -> (u16, u16) {
    let (_, uses, defs) = answer(op);
    (uses, defs)
}
