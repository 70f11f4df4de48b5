//! The eight words: a decoder by mask and match, and document 01's table of fields.

/// In the order of their numbers in C.
#[derive(Clone, Copy, PartialEq, Eq, Debug)]
pub enum Kind {
    VclmulVv,
    VclmulVx,
    VclmulhVv,
    VclmulhVx,
    VghshVv,
    VghshVs,
    VgmulVv,
    VgmulVs,
}

use Kind::*;

#[derive(Clone, Copy, PartialEq, Eq, Debug)]
pub struct Word {
    pub kind: Kind,
    pub vm: bool,
    pub vs2: u32,
    /// vs1 or rs1.
    pub vs1: u32,
    pub vd: u32,
}

/// A word is of a kind when its bits under the mask are those of the match.
const DECODER: [(u32, u32, Kind); 8] = [
    (0xFC00_707F, 0x3000_2057, VclmulVv),
    (0xFC00_707F, 0x3000_6057, VclmulVx),
    (0xFC00_707F, 0x3400_2057, VclmulhVv),
    (0xFC00_707F, 0x3400_6057, VclmulhVx),
    (0xFE00_707F, 0xB200_2077, VghshVv),
    (0xFE00_707F, 0x8E00_2077, VghshVs),
    (0xFE0F_F07F, 0xA208_A077, VgmulVv),
    (0xFE0F_F07F, 0xA608_A077, VgmulVs),
];

pub fn decode(word: u32) -> Option<Word> {
    let (_, _, kind) = DECODER.into_iter().find(|(mask, bits, _)| word & mask == *bits)?;
    Some(Word { kind, vm: word >> 25 & 1 == 1, vs2: word >> 20 & 31, vs1: word >> 15 & 31, vd: word >> 7 & 31 })
}

/// A row of document 01's table; none stands for "0 or 1" and for "any".
pub struct Row {
    pub kind: Kind,
    pub funct6: u32,
    pub vm: Option<u32>,
    pub vs1: Option<u32>,
    pub funct3: u32,
    pub opcode: u32,
}

const fn row(kind: Kind, funct6: u32, vm: Option<u32>, vs1: Option<u32>, funct3: u32, opcode: u32) -> Row {
    Row { kind, funct6, vm, vs1, funct3, opcode }
}

pub const TABLE: [Row; 8] = [
    row(VclmulVv, 0b001100, None, None, 0b010, 0b1010111),
    row(VclmulVx, 0b001100, None, None, 0b110, 0b1010111),
    row(VclmulhVv, 0b001101, None, None, 0b010, 0b1010111),
    row(VclmulhVx, 0b001101, None, None, 0b110, 0b1010111),
    row(VghshVv, 0b101100, Some(1), None, 0b010, 0b1110111),
    row(VghshVs, 0b100011, Some(1), None, 0b010, 0b1110111),
    row(VgmulVv, 0b101000, Some(1), Some(0b10001), 0b010, 0b1110111),
    row(VgmulVs, 0b101001, Some(1), Some(0b10001), 0b010, 0b1110111),
];

impl Row {
    /// The word of this row, with the wished vm and vs1 where the row leaves them open.
    pub fn encode(&self, vm: u32, vs2: u32, vs1: u32, vd: u32) -> u32 {
        self.with(self.vm.unwrap_or(vm), vs2, self.vs1.unwrap_or(vs1), vd)
    }

    /// The row's funct6, funct3 and opcode with these fields, whether the row allows them or not.
    pub fn with(&self, vm: u32, vs2: u32, vs1: u32, vd: u32) -> u32 {
        self.funct6 << 26 | vm << 25 | vs2 << 20 | vs1 << 15 | self.funct3 << 12 | vd << 7 | self.opcode
    }
}

impl Kind {
    pub fn is_ghash(self) -> bool {
        matches!(self, VghshVv | VghshVs | VgmulVv | VgmulVs)
    }

    /// A .vs word: one key for all groups.
    pub fn is_vs(self) -> bool {
        matches!(self, VghshVs | VgmulVs)
    }

    pub fn is_vx(self) -> bool {
        matches!(self, VclmulVx | VclmulhVx)
    }

    pub fn is_high(self) -> bool {
        matches!(self, VclmulhVv | VclmulhVx)
    }

    /// Whether the vs1 field names a vector register group.
    pub fn reads_vs1(self) -> bool {
        matches!(self, VclmulVv | VclmulhVv | VghshVv | VghshVs)
    }
}

impl Word {
    /// The registers that refusal 6 looks at.
    pub fn groups(&self) -> Vec<u32> {
        let mut groups = vec![self.vd];
        if !self.kind.is_vs() {
            groups.push(self.vs2);
        }
        if self.kind.reads_vs1() {
            groups.push(self.vs1);
        }
        groups
    }

    /// The registers that refusal 8 looks at, where vm is 0.
    pub fn beside_mask(&self) -> Vec<u32> {
        let mut registers = vec![self.vd, self.vs2];
        if self.kind.reads_vs1() {
            registers.push(self.vs1);
        }
        registers
    }
}
