//! Settings blocks, written and read. The crate has no such thing: the stand-in is the plain way to do it in Rust, a block on the stack with
//! `to_le_bytes`, both sums in one pass, and the tests of docs/SETTINGS.md in their order. Both sides give the block or the setting by value.
use crate::generate::Random;
use crate::limits::{BLOCK_BYTES, COUNT_WORDS, SETTINGS_VERSION};
use crate::{least, ns, ours, time};
use std::hint::black_box;

const SUMMED: usize = BLOCK_BYTES - 4;
const TARGET: usize = 4;
const TARGET_END: usize = TARGET + 4 * COUNT_WORDS;

/// Settings that are measured together.
const CASES: usize = 64;

struct Case {
    version: u32,
    setting: ours::Setting,
    block: [u8; BLOCK_BYTES],
}

fn sums(front: &[u8]) -> [u8; 4] {
    let (mut plain, mut weighed) = (0u32, 0u32);
    for (byte, place) in front.iter().zip(1..) {
        plain += *byte as u32;
        weighed += *byte as u32 * place;
    }
    let ([a, b, ..], [c, d, ..]) = (plain.to_le_bytes(), weighed.to_le_bytes());
    [a, b, c, d]
}

fn in_range(version: u32, setting: &ours::Setting) -> bool {
    let size = setting.kind == 1 || setting.target[1..].iter().all(|word| *word == 0);
    setting.direction < 2 && setting.kind < 2 && setting.as_is < version && setting.as_is < 2 && size
}

fn write(version: u32, setting: &ours::Setting) -> Option<[u8; BLOCK_BYTES]> {
    if version == 0 || version > SETTINGS_VERSION as u32 || !in_range(version, setting) {
        return None;
    }
    let mut block = [0; BLOCK_BYTES];
    for (byte, field) in block.iter_mut().zip([version, setting.direction, setting.kind, setting.as_is]) {
        *byte = field as u8;
    }
    for (bytes, word) in block[TARGET..TARGET_END].chunks_exact_mut(4).zip(setting.target) {
        bytes.copy_from_slice(&word.to_le_bytes());
    }
    let sums = sums(&block[..SUMMED]);
    block[SUMMED..].copy_from_slice(&sums);
    Some(block)
}

fn read(block: &[u8]) -> Option<(u32, ours::Setting)> {
    if block.len() != BLOCK_BYTES || sums(&block[..SUMMED]) != block[SUMMED..] {
        return None;
    }
    let [version, direction, kind, flag] = [0, 1, 2, 3].map(|at| block[at] as u32);
    if version == 0 || version > SETTINGS_VERSION as u32 {
        return None;
    }
    let mut target = [0; COUNT_WORDS];
    for (word, bytes) in target.iter_mut().zip(block[TARGET..TARGET_END].chunks_exact(4)) {
        *word = u32::from_le_bytes(bytes.try_into().unwrap());
    }
    let setting = ours::Setting { direction, kind, as_is: if version == 1 { 0 } else { flag }, target };
    let unused = version == 1 && flag != 0 || block[TARGET_END..SUMMED].iter().any(|byte| *byte != 0);
    (in_range(version, &setting) && !unused).then_some((version, setting))
}

fn any_case(random: &mut Random) -> Case {
    let version = 1 + random.below(2) as u32;
    let kind = random.below(2) as u32;
    let mut target = [0; COUNT_WORDS];
    target[..if kind == 0 { 1 } else { COUNT_WORDS }].iter_mut().for_each(|word| *word = random.below(1 << 32) as u32);
    let setting = ours::Setting { direction: random.below(2) as u32, kind, as_is: random.below(version as usize) as u32, target };
    let block = write(version, &setting).expect("a right setting");
    Case { version, setting, block }
}

/// Both sides write the same bytes and read the same setting, and refuse a damaged block.
fn compare(case: &Case) {
    let mut block = [0; BLOCK_BYTES];
    let written = ours::write_settings(case.version, case.setting, &mut block);
    assert_eq!((written.number, written.place, written.bytes), (0, 0, BLOCK_BYTES));
    assert_eq!(block, case.block);
    let said = ours::read_settings(&block);
    assert_eq!((said.number, said.place, Some((said.version, said.setting))), (0, 0, read(&block)));
    assert_eq!((said.version, said.setting), (case.version, case.setting));
    block[9] ^= 1;
    assert_eq!((ours::read_settings(&block).number, read(&block)), (22, None));
}

pub fn settings(seed: u64) {
    let random = &mut Random(seed);
    let cases: Vec<Case> = (0..CASES).map(|_| any_case(random)).collect();
    cases.iter().for_each(compare);
    let mut block = [0; BLOCK_BYTES];
    let mut passes = [[0.0; 2]; 4];
    for pass in 0..2 {
        passes[0][pass] = time(&cases, |case| _ = black_box(write(black_box(case.version), black_box(&case.setting))));
        passes[1][pass] = time(&cases, |case| _ = black_box(ours::write_settings(black_box(case.version), black_box(case.setting), black_box(&mut block))));
        passes[2][pass] = time(&cases, |case| _ = black_box(read(black_box(&case.block))));
        passes[3][pass] = time(&cases, |case| _ = black_box(ours::read_settings(black_box(&case.block))));
    }
    println!("\nsettings blocks, {CASES} of them: times in ns a call, the smaller of two passes' medians\n");
    println!("| function | stand-in | ours | ours / stand-in |\n|---|--:|--:|--:|");
    let times = passes.map(least);
    for (name, side) in [("write_settings", 0), ("read_settings", 2)] {
        println!("| {name} | {} | {} | {:.2} |", ns(times[side]), ns(times[side + 1]), times[side + 1] / times[side]);
    }
}
