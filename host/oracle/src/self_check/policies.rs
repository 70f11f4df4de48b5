//! The fills of document 02's Ask 5, on cases that were worked out by hand, and byte by byte against both policies off.

use super::Check;
use crate::model::execute::{execute, Policies, Request, LMULS, POLICIES, SEWS, UNDISTURBED, VLENS};
use crate::model::field::ONE;
use crate::model::word::TABLE;
use crate::rng::Rng;

pub fn checks(rng: &mut Rng) -> Vec<Check> {
    let elements = KNOWN_ELEMENTS.iter().all(|known| holds(known, VCLMUL_VX));
    let groups = KNOWN_GROUPS.iter().all(|known| holds(known, VGHSH_VV) && holds(known, VGHSH_VS));
    vec![
        ("known fills of elements", elements),
        ("known fills of a GHASH word's groups", groups),
        ("no refusal looks at the policies", refusals_stand()),
        ("the fills byte by byte", fills_follow_bytes(rng)),
    ]
}

const TU_MU: Policies = Policies { tail_agnostic: false, mask_agnostic: false };
const TA_MU: Policies = Policies { tail_agnostic: true, mask_agnostic: false };
const TU_MA: Policies = Policies { tail_agnostic: false, mask_agnostic: true };
const TA_MA: Policies = Policies { tail_agnostic: true, mask_agnostic: true };

/// VLEN, SEW and LMUL: 16 bytes in one register, 4 numbers of 64 bits in two, 4 groups of 128 bits in two.
const BYTES: [u32; 3] = [128, 8, 1];
const NUMBERS: [u32; 3] = [128, 64, 2];
const GROUPS: [u32; 3] = [256, 32, 2];

/// A setting, the mask where vm is 0, the policies, vl and vstart, and what becomes of the parts of vd's group: "."
/// stays, "r" gets its result, "F" becomes ones.
type Known = ([u32; 3], Option<u16>, Policies, u32, u32, &'static str);

const KNOWN_ELEMENTS: [Known; 33] = [
    // The tail, from vl on to the group's last byte.
    (BYTES, None, TU_MU, 4, 0, "rrrr............"),
    (BYTES, None, TA_MU, 4, 0, "rrrrFFFFFFFFFFFF"),
    (BYTES, None, TA_MU, 1, 0, "rFFFFFFFFFFFFFFF"),
    (BYTES, None, TA_MU, 15, 0, "rrrrrrrrrrrrrrrF"),
    (BYTES, None, TA_MU, 16, 0, "rrrrrrrrrrrrrrrr"),
    (BYTES, None, TA_MU, 4, 3, "...rFFFFFFFFFFFF"),
    (BYTES, None, TA_MU, 16, 15, "...............r"),
    (NUMBERS, None, TA_MU, 1, 0, "rFFF"),
    (NUMBERS, None, TA_MU, 3, 0, "rrrF"),
    (NUMBERS, None, TA_MU, 4, 0, "rrrr"),
    (NUMBERS, None, TA_MU, 2, 1, ".rFF"),
    // vstart at or past vl.
    (BYTES, None, TA_MA, 0, 0, "................"),
    (BYTES, None, TA_MA, 0, 1, "................"),
    (BYTES, None, TA_MA, 4, 4, "................"),
    (BYTES, None, TA_MA, 4, 5, "................"),
    (BYTES, None, TA_MA, 16, 16, "................"),
    (BYTES, None, TA_MA, 4, u32::MAX, "................"),
    (BYTES, Some(0), TA_MA, 4, 4, "................"),
    // The mask, bit 0 for element 0. The tail's bits say nothing.
    (BYTES, Some(0b0101), TU_MU, 4, 0, "r.r............."),
    (BYTES, Some(0b0101), TU_MA, 4, 0, "rFrF............"),
    (BYTES, Some(0b0101), TA_MU, 4, 0, "r.r.FFFFFFFFFFFF"),
    (BYTES, Some(0b0101), TA_MA, 4, 0, "rFrFFFFFFFFFFFFF"),
    (BYTES, Some(0), TU_MA, 4, 0, "FFFF............"),
    (BYTES, Some(0), TA_MU, 4, 0, "....FFFFFFFFFFFF"),
    (BYTES, Some(0xFFF0), TU_MA, 4, 0, "FFFF............"),
    (BYTES, Some(0xFFF0), TA_MU, 4, 0, "....FFFFFFFFFFFF"),
    (BYTES, Some(0x0100), TU_MA, 16, 7, ".......FrFFFFFFF"),
    (NUMBERS, Some(0b0101), TU_MA, 3, 0, "rFr."),
    (NUMBERS, Some(0b0101), TA_MA, 3, 0, "rFrF"),
    // Masked off before vstart.
    (BYTES, Some(0b1000), TU_MA, 4, 2, "..Fr............"),
    (BYTES, Some(0b1000), TA_MA, 4, 3, "...rFFFFFFFFFFFF"),
    // vm 1: no element is masked off.
    (BYTES, None, TU_MA, 4, 0, "rrrr............"),
    (NUMBERS, None, TU_MA, 3, 1, ".rr."),
];

const KNOWN_GROUPS: [Known; 9] = [
    (GROUPS, None, TU_MU, 8, 0, "rr.."),
    (GROUPS, None, TU_MA, 8, 0, "rr.."),
    (GROUPS, None, TA_MU, 8, 0, "rrFF"),
    (GROUPS, None, TA_MA, 8, 4, ".rFF"),
    (GROUPS, None, TA_MA, 12, 0, "rrrF"),
    (GROUPS, None, TA_MA, 16, 0, "rrrr"),
    (GROUPS, None, TA_MA, 0, 0, "...."),
    (GROUPS, None, TA_MA, 8, 8, "...."),
    (GROUPS, None, TA_MA, 8, 12, "...."),
];

/// Places in the table of words.
const VCLMUL_VX: usize = 1;
const VGHSH_VV: usize = 4;
const VGHSH_VS: usize = 5;

const VD: u32 = 8;
const VS2: u32 = 16;
const VS1: u32 = 24;

/// Every byte is 0x11, but for the mask and the sources. These make each byte of a result 0x22: a product with one, or
/// Y xor X times the one block. Where vm is 1 each bit in the mask's place is 0.
fn file_before([vlen, _, lmul]: [u32; 3], mask: Option<u16>, is_ghash: bool) -> Vec<u8> {
    let register = |r: u32| (r * vlen / 8) as usize;
    let mut file = vec![0x11; register(32)];
    file[register(VS1)..register(VS1 + lmul)].fill(0x33);
    let vs2_part = if is_ghash { ONE } else { [0x22; 16] };
    file[register(VS2)..register(VS2 + lmul)].chunks_mut(16).for_each(|part| part.copy_from_slice(&vs2_part));
    file[..2].copy_from_slice(&mask.unwrap_or(0).to_le_bytes());
    file
}

fn holds(&(setting, mask, policies, vl, vstart, parts): &Known, row: usize) -> bool {
    let ([vlen, sew, lmul], row) = (setting, &TABLE[row]);
    let file = file_before(setting, mask, row.kind.is_ghash());
    let (start, length) = ((VD * vlen / 8) as usize, (lmul * vlen / 8) as usize);
    let mut after = file.clone();
    for (bytes, part) in after[start..start + length].chunks_mut(length / parts.len()).zip(parts.chars()) {
        match part {
            'r' => bytes.fill(0x22),
            'F' => bytes.fill(0xFF),
            _ => {}
        }
    }
    let word = row.encode(mask.is_none() as u32, VS2, VS1, VD);
    let outcome = execute(&Request { word, vlen, sew, lmul, policies, vl, vstart, scalar: 1, file: &file });
    (outcome.answer, outcome.vstart, outcome.file) == (0, 0, after)
}

/// A word, its setting, vl and vstart, and its refusal, which no policy changes.
const REFUSED: [(u32, [u32; 3], [u32; 2], u32); 10] = [
    (0x3221_E0D7, [129, 8, 1], [4, 3], 1),  // vclmul.vx v1, v2, x3
    (0x0000_0013, [128, 8, 1], [4, 3], 2),  // no word of the eight
    (0x3221_E0D7, [128, 7, 1], [4, 3], 3),  // vclmul.vx v1, v2, x3
    (0x3221_E0D7, [128, 8, 1], [17, 3], 3), // the same
    (0xB286_2277, [128, 16, 1], [4, 0], 4), // vghsh.vv v4, v8, v12
    (0xB286_2277, [128, 32, 1], [3, 0], 5), // the same
    (0xB286_2277, [128, 32, 1], [4, 2], 5), // the same
    (0x3221_E0D7, [128, 8, 2], [4, 3], 6),  // vclmul.vx v1, v2, x3
    (0x8E46_2277, [128, 32, 1], [4, 0], 7), // vghsh.vs v4, v4, v12
    (0x3081_E057, [128, 8, 1], [4, 3], 8),  // vclmul.vx v0, v8, x3, v0.t
];

fn refusals_stand() -> bool {
    let file = file_before(BYTES, None, false);
    let mut cases = REFUSED.iter().flat_map(|refused| POLICIES.map(|policies| (refused, policies)));
    cases.all(|(&(word, [vlen, sew, lmul], [vl, vstart], number), policies)| {
        let outcome = execute(&Request { word, vlen, sew, lmul, policies, vl, vstart, scalar: 1, file: &file });
        (outcome.answer, outcome.vstart) == (number, vstart) && outcome.file == file
    })
}

/// Any word that is done: each byte of the file by Ask 5's words alone, where it is not as with both policies off.
fn fills_follow_bytes(rng: &mut Rng) -> bool {
    (0..3_000).all(|_| {
        let row = &TABLE[rng.below(8)];
        let (vlen, lmul) = (rng.pick(&VLENS), rng.pick(&LMULS));
        let (sew, step) = if row.kind.is_ghash() { (32, 4) } else { (rng.pick(&SEWS), 1) };
        let vl = step * rng.below_u32(lmul * vlen / sew / step + 1);
        let vstart = step * rng.below_u32(vl / step + 2);
        let vm = row.vm.unwrap_or(rng.below_u32(2));
        let (word, file) = (row.encode(vm, VS2, VS1, VD), rng.bytes(32 * vlen as usize / 8));
        let after =
            |policies| execute(&Request { word, vlen, sew, lmul, policies, vl, vstart, scalar: 1, file: &file }).file;
        let (undisturbed, vd_bits) = (after(UNDISTURBED), VD * vlen..(VD + lmul) * vlen);
        let is_filled = |p: Policies, bit: u32| {
            let element = (bit - vd_bits.start) / sew;
            let masked_off = vm == 0 && file[element as usize / 8] & 1 << (element % 8) == 0;
            let in_tail = element >= vl;
            p.tail_agnostic && in_tail || p.mask_agnostic && masked_off && element >= vstart && !in_tail
        };
        POLICIES.into_iter().all(|p| {
            let fills = |bit: u32| vstart < vl && vd_bits.contains(&bit) && is_filled(p, bit);
            let bytes = (0..).step_by(8).zip(&undisturbed);
            after(p) == bytes.map(|(bit, &byte)| if fills(bit) { 0xFF } else { byte }).collect::<Vec<_>>()
        })
    })
}
