//! The model against the papers themselves, without the library: the marked cases, the example words and their texts,
//! the overlap that is reserved, fills, records, parked running hashes and links by hand, published GHASH values, and
//! each of the model's methods against another one.

mod links;
mod parked;
mod policies;
mod traces;

use crate::model::execute::{execute, Request, LMULS, UNDISTURBED, VLENS};
use crate::model::field::{from_bits, inverse, single, times, to_bits, Block, ONE, ZERO};
use crate::model::hash::ghash;
use crate::model::linear::Solutions;
use crate::model::running::{transition, Call, Fed, FRESH};
use crate::model::step_back::{earlier, step_back_call};
use crate::model::text::{assemble_call, listing, LEAST_BUFFER};
use crate::model::word::{decode, Kind, Row, Word, TABLE};
use crate::model::writer::{decode_call, encode, Fields};
use crate::rng::Rng;
use std::collections::HashMap;

/// Runs all checks; false if one fails.
pub fn run(seed: u64) -> bool {
    let mut rng = Rng::for_call(seed, "self-check", 0);
    let mut checks = marked_cases();
    checks.extend(published());
    checks.push(("the example words", example_words()));
    checks.push(("mask and match against the table of fields", decoder_follows_table(&mut rng)));
    checks.push(("number 7 against the bytes that source 002 means", overlap_follows_bytes()));
    checks.extend(policies::checks(&mut rng));
    checks.extend(texts(&mut rng));
    checks.extend(traces::checks(&mut rng));
    checks.push(("coefficient k is bit 7 - k mod 8 of byte k div 8", places()));
    checks.push(("the product against the bit-by-bit rule", product_follows_rule(&mut rng)));
    checks.push(("the inverse by power against the linear system", inverses(&mut rng)));
    checks.push(("the bytes fed against the transition on fields", running_agrees(&mut rng)));
    checks.extend(parked::checks(&mut rng));
    checks.extend(links::checks(&mut rng));
    let failed: Vec<_> = checks.iter().filter(|(_, holds)| !holds).collect();
    for (name, _) in &failed {
        println!("self-check: {name}: FAILED");
    }
    if failed.is_empty() {
        let names: Vec<_> = checks.iter().map(|(name, _)| *name).collect();
        println!("self-check: {} checks hold: {}", names.len(), names.join("; "));
    }
    failed.is_empty()
}

/// These bytes, then zeros, then those.
fn block(front: &[u8], back: &[u8]) -> Block {
    let mut block = ZERO;
    block[..front.len()].copy_from_slice(front);
    block[16 - back.len()..].copy_from_slice(back);
    block
}

type Check = (&'static str, bool);

fn marked_cases() -> Vec<Check> {
    let x = block(&[0x40], &[]);
    let last = block(&[], &[0x01]);
    let back = |h: &Block, later: &Block| step_back_call(h, &ZERO, later, 16);
    let found = back(&x, &ONE);
    vec![
        ("K1", halves(8, 0x03, 0x03) == (0x05, 0x00)),
        ("K2", halves(8, 0xFF, 0xFF) == (0x55, 0x55)),
        ("K3", halves(8, 0x80, 0x80) == (0x00, 0x40)),
        ("K4", halves(8, 0x80, 0x02) == (0x00, 0x01)),
        ("K5", halves(16, 0xFFFF, 0xFFFF) == (0x5555, 0x5555)),
        ("K6", executed_product(&x, &last) == block(&[0xE1], &[])),
        ("K7", executed_product(&last, &last) == block(&[0xE6, 0x08], &[0x03])),
        ("K8", executed_product(&ONE, &last) == last),
        ("K9", found.answer == 0 && found.block == block(&[0xC2], &[0x01])),
        ("K10", back(&ZERO, &ZERO).answer == 13),
        ("K11", back(&ZERO, &ONE).answer == 12),
        ("K12", decode(0xB286_2277) == Some(Word { kind: Kind::VghshVv, vm: true, vs2: 8, vs1: 12, vd: 4 })),
        ("K13", ghash(&x, &[], &[]) == ZERO),
        ("K14", ghash(&ONE, &[], &[0x01]) == block(&[0x01], &[0x08])),
    ]
}

/// Element 0 after a word of this kind with vd 1, vs2 2, vs1 3, VLEN 128 and LMUL 1.
fn executed(kind: Kind, sew: u32, vl: u32, vd: &[u8], vs2: &[u8], vs1: &[u8], scalar: u64) -> Vec<u8> {
    let mut file = vec![0; 512];
    for (register, content) in [(1, vd), (2, vs2), (3, vs1)] {
        file[16 * register..][..content.len()].copy_from_slice(content);
    }
    let row = TABLE.iter().find(|row| row.kind == kind).expect("a row for each kind");
    let word = row.encode(1, 2, 3, 1);
    let (vlen, lmul, policies, vstart) = (128, 1, UNDISTURBED, 0);
    let outcome = execute(&Request { word, vlen, sew, lmul, policies, vl, vstart, scalar, file: &file });
    assert_eq!((outcome.answer, outcome.vstart), (0, 0));
    outcome.file[16..32].to_vec()
}

/// The low and the high half of the product of two elements, by the .vv words; the .vx words must agree.
fn halves(sew: u32, a: u64, b: u64) -> (u64, u64) {
    let run = |kind| {
        let bytes = executed(kind, sew, 1, &[], &a.to_le_bytes(), &b.to_le_bytes(), b);
        u64::from_le_bytes(bytes[..8].try_into().expect("8 bytes"))
    };
    let vv = (run(Kind::VclmulVv), run(Kind::VclmulhVv));
    let vx = (run(Kind::VclmulVx), run(Kind::VclmulhVx));
    assert_eq!(vv, vx);
    vv
}

/// U·H by a vgmul.vv; the bare product must agree.
fn executed_product(u: &Block, h: &Block) -> Block {
    let bytes = executed(Kind::VgmulVv, 32, 4, u, h, &[], 0);
    assert_eq!(bytes, times(u, h));
    times(u, h)
}

fn example_words() -> bool {
    decode(0x3221_E0D7) == Some(Word { kind: Kind::VclmulVx, vm: true, vs2: 2, vs1: 3, vd: 1 })
        && TABLE[4].encode(1, 8, 12, 4) == 0xB286_2277
        && TABLE[1].encode(1, 2, 3, 1) == 0x3221_E0D7
}

/// Values of GHASH from the test cases 1 to 4 of the GCM specification.
fn published() -> Vec<Check> {
    let h2 = hex("66e94bd4ef8a2c3b884cfa59ca342b2e");
    let h4 = hex("b83b533708bf535d0aa6e52980d53b78");
    let c2 = hex("0388dace60b6a392f328c2b971b2fe78");
    let c3 = hex(concat!(
        "42831ec2217774244b7221b784d0d49ce3aa212f2c02a4e035c17e2329aca12e",
        "21d514b25466931c7d8f6a5aac84aa051ba30b396a0aac973d58e091473f5985"
    ));
    let a4 = hex("feedfacedeadbeeffeedfacedeadbeefabaddad2");
    let is = |h: &[u8], a: &[u8], c: &[u8], hash: &str| ghash(&h.try_into().expect("16 bytes"), a, c)[..] == hex(hash);
    vec![
        ("GCM test case 1", is(&h2, &[], &[], "00000000000000000000000000000000")),
        ("GCM test case 2", is(&h2, &[], &c2, "f38cbb1ad69223dcc3457ae5b6b0f885")),
        ("GCM test case 3", is(&h4, &[], &c3, "7f1b32b81b820d02614f8895ac1d4eac")),
        ("GCM test case 4", is(&h4, &a4, &c3[..60], "698e57f70e6ecc7fd9463b7260a9ae5f")),
    ]
}

fn hex(text: &str) -> Vec<u8> {
    let byte = |i| u8::from_str_radix(&text[i..i + 2], 16).expect("two hexadecimal digits");
    (0..text.len()).step_by(2).map(byte).collect()
}

/// The bytes of a record whose parts are spelled with a space between them.
fn spelled(record: &str) -> Vec<u8> {
    hex(&record.replace(' ', ""))
}

/// A word is of a kind exactly when its fields are those of the kind's row.
fn decoder_follows_table(rng: &mut Rng) -> bool {
    let by_fields = |word: u32| {
        let field = |low: u32, size: u32| word >> low & ((1 << size) - 1);
        let fits = |wanted: Option<u32>, found: u32| wanted.map_or(true, |w| w == found);
        let row = TABLE.iter().find(|row| {
            (field(26, 6), field(12, 3), field(0, 7)) == (row.funct6, row.funct3, row.opcode)
                && fits(row.vm, field(25, 1))
                && fits(row.vs1, field(15, 5))
        })?;
        Some(Word { kind: row.kind, vm: field(25, 1) == 1, vs2: field(20, 5), vs1: field(15, 5), vd: field(7, 5) })
    };
    (0..200_000).all(|_| {
        let [vm, vs2, vs1, vd] = [2, 32, 32, 32].map(|n| rng.below_u32(n));
        let row = &TABLE[rng.below(8)];
        let word = row.encode(vm, vs2, vs1, vd);
        let damaged = word ^ 1 << rng.below(32);
        decode(word).map_or(false, |w| w.kind == row.kind && (w.vs2, w.vd) == (vs2, vd))
            && [word, damaged, rng.u32()].iter().all(|&w| decode(w) == by_fields(w))
    })
}

/// Each GHASH word with every vd and vs2, under each VLEN and LMUL.
fn overlap_follows_bytes() -> bool {
    let rows = TABLE.iter().filter(|row| row.kind.is_ghash());
    let mut cases = rows.flat_map(|row| VLENS.into_iter().flat_map(move |vlen| LMULS.map(|lmul| (row, vlen, lmul))));
    cases.all(|(row, vlen, lmul)| (0..32 * 32).all(|n| overlap_of_word(row, vlen, lmul, n / 32, n % 32)))
}

/// Source 002 reserves a .vs word where vd's register group overlaps the scalar element group of vs2: where a byte of
/// the key, the 16 from the start of vs2 on, is one of vd's group. Number 6 comes before.
fn overlap_of_word(row: &Row, vlen: u32, lmul: u32, vd: u32, vs2: u32) -> bool {
    let is_vs = matches!(row.kind, Kind::VghshVs | Kind::VgmulVs);
    let start = |register: u32| register * vlen / 8;
    let (group, mut key) = (start(vd)..start(vd) + lmul * vlen / 8, start(vs2)..start(vs2) + 16);
    let misaligned = vd % lmul != 0 || !is_vs && vs2 % lmul != 0;
    let reserved = is_vs && key.any(|byte| group.contains(&byte));
    let (word, file) = (row.encode(1, vs2, 8, vd), vec![0; start(32) as usize]);
    let (sew, policies, vl, vstart) = (32, UNDISTURBED, 4, 0);
    let outcome = execute(&Request { word, vlen, sew, lmul, policies, vl, vstart, scalar: 0, file: &file });
    let expected = match (misaligned, reserved) {
        (true, _) => 6,
        (false, true) => 7,
        (false, false) => 0,
    };
    outcome.answer == expected
}

/// A word of each kind with its text and fields, put together by hand from document 01's table.
#[rustfmt::skip]
const KNOWN_TEXTS: [(u32, &str, [u32; 5]); 10] = [
    (0xB286_2277, "vghsh.vv v4, v8, v12", [4, 1, 8, 12, 4]),
    (0x3221_E0D7, "vclmul.vx v1, v2, x3", [1, 1, 2, 3, 1]),
    (0x3294_2557, "vclmul.vv v10, v9, v8", [0, 1, 9, 8, 10]),
    (0x3694_2557, "vclmulh.vv v10, v9, v8", [2, 1, 9, 8, 10]),
    (0x3695_6557, "vclmulh.vx v10, v9, x10", [3, 1, 9, 10, 10]),
    (0x8E94_2577, "vghsh.vs v10, v9, v8", [5, 1, 9, 8, 10]),
    (0xA298_A577, "vgmul.vv v10, v9", [6, 1, 9, 17, 10]),
    (0xA698_A577, "vgmul.vs v10, v9", [7, 1, 9, 17, 10]),
    (0x3000_6057, "vclmul.vx v0, v0, x0, v0.t", [1, 0, 0, 0, 0]),
    (0x35FF_AFD7, "vclmulh.vv v31, v31, v31, v0.t", [2, 0, 31, 31, 31]),
];

/// The writer, the listing and the reader.
fn texts(rng: &mut Rng) -> Vec<Check> {
    let known = KNOWN_TEXTS.iter().all(|&(word, text, numbers)| {
        let fields = Fields::new(numbers);
        encode(&fields) == Some(word)
            && decode_call(word) == (0, fields)
            && decode(word).map_or(false, |w| listing(&w) == text)
            && assemble_call(text.as_bytes()) == (0, word)
    });
    let all = all_texts();
    let longest = all.keys().map(|text| text.len()).max();
    vec![
        ("known words and texts", known),
        ("the writer's digits against the decoder", writer_follows_decoder(rng)),
        ("no two words have the same text", all.len() == WORDS),
        ("the longest text has 30 bytes", longest == Some(30) && longest <= Some(LEAST_BUFFER)),
        ("the reader against a list of all texts", reader_follows_list(rng, &all)),
    ]
}

/// Fields are written exactly where the word with them is decoded to them again, and none that is too large.
fn writer_follows_decoder(rng: &mut Rng) -> bool {
    (0..20_000).all(|_| {
        let sizes = [8, 2, 32, 32, 32];
        let [kind, vm, vs2, any, vd] = sizes.map(|n| rng.below_u32(n));
        let fields = Fields::new([kind, vm, vs2, rng.pick(&[any, 0b10001]), vd]);
        let word = TABLE[kind as usize].with(vm, vs2, fields.vs1, vd);
        let mut too_large = fields.numbers();
        let place = rng.below(5);
        too_large[place] += sizes[place] << rng.below(26);
        let written = encode(&fields);
        written == (decode_call(word) == (0, fields)).then_some(word) && encode(&Fields::new(too_large)).is_none()
    })
}

/// How many words there are: four kinds leave vm and three registers open, two the registers alone, and two vd and vs2.
const WORDS: usize = (4 * 2 + 2) * 32 * 32 * 32 + 2 * 32 * 32;

/// The text of every word that the rows of the table make.
fn all_texts() -> HashMap<String, u32> {
    let mut all = HashMap::with_capacity(WORDS);
    for row in &TABLE {
        for vm in 0..row.vm.map_or(2, |_| 1) {
            for vs1 in 0..row.vs1.map_or(32, |_| 1) {
                for vs2_vd in 0..32 * 32 {
                    let word = row.encode(vm, vs2_vd / 32, vs1, vs2_vd % 32);
                    all.insert(listing(&decode(word).expect("a word of this row")), word);
                }
            }
        }
    }
    all
}

/// A text is read exactly when it is in the list, whole or with a byte changed or dropped.
fn reader_follows_list(rng: &mut Rng, all: &HashMap<String, u32>) -> bool {
    let listed = |text: &str| all.get(text).map_or((2, 0), |&word| (0, word));
    (0..20_000).all(|_| {
        let [vm, vs2, vs1, vd] = [2, 32, 32, 32].map(|n| rng.below_u32(n));
        let word = TABLE[rng.below(8)].encode(vm, vs2, vs1, vd);
        let text = listing(&decode(word).expect("a word of this row"));
        let (place, byte) = (rng.below(text.len()), rng.pick(b" ,.0123456789vx"));
        let changed = format!("{}{}{}", &text[..place], byte as char, &text[place + 1..]);
        let dropped = format!("{}{}", &text[..place], &text[place + 1..]);
        assemble_call(text.as_bytes()) == (0, word)
            && [changed, dropped].iter().all(|t| assemble_call(t.as_bytes()) == listed(t))
    })
}

fn places() -> bool {
    (0..128).all(|k| to_bits(&single(k)) == 1 << k && from_bits(1 << k) == single(k))
}

/// Document 01's rule for U·H, word for word, on lists of coefficients.
fn rule(u: &Block, h: &Block) -> Block {
    let coefficients = |b: &Block| -> Vec<bool> { (0..128).map(|k| b[k / 8] >> (7 - k % 8) & 1 == 1).collect() };
    let (u, mut v) = (coefficients(u), coefficients(h));
    let mut z = [false; 128];
    for coefficient in u {
        if coefficient {
            (0..128).for_each(|i| z[i] ^= v[i]);
        }
        let top = v.pop() == Some(true);
        v.insert(0, false);
        if top {
            [0, 1, 2, 7].into_iter().for_each(|i| v[i] = !v[i]);
        }
    }
    let mut block = ZERO;
    (0..128).filter(|&k| z[k]).for_each(|k| block[k / 8] |= 1 << (7 - k % 8));
    block
}

fn product_follows_rule(rng: &mut Rng) -> bool {
    let pairs = (0..128).map(|k| (single(k), single(127 - k / 2))).chain((0..1000).map(|_| (rng.block(), rng.block())));
    pairs.into_iter().all(|(u, h)| times(&u, &h) == rule(&u, &h))
}

fn inverses(rng: &mut Rng) -> bool {
    let keys = (0..128).map(single).chain((0..50).map(|_| rng.block()));
    keys.into_iter().all(|h| {
        let inverse = inverse(&h);
        times(&inverse, &h) == ONE && earlier(&h, &ZERO, &ONE) == Solutions::One(to_bits(&inverse))
    })
}

/// A random run, once as bytes and once as fields.
fn running_agrees(rng: &mut Rng) -> bool {
    (0..300).all(|_| {
        let key = rng.block();
        let (mut fed, mut state) = (Fed::default(), FRESH);
        (0..10).all(|_| {
            let len = rng.below(50);
            let piece = rng.bytes(len);
            let call = match rng.below(6) {
                0..=2 => Call::FeedA(&piece),
                3..=4 => Call::FeedC(&piece),
                _ => Call::Finish { out_len: 16 },
            };
            let (answer, after) = transition(&state, &key, call);
            state = after;
            fed.apply(16, call) == answer && fed.state(&key) == state
        })
    })
}
