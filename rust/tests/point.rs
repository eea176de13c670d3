//! The point from Rust: reference points, refusals and their order, with guard bytes round every buffer.
use hisowake::calls::point;

const FILL: u8 = 0x5A;
const GUARD: usize = 32;
const LAST: u64 = 4294967295;

const HALTON_6: &[u8] = &[0x30, 0x08, 0x10, 0x20, 0x30, 0x50, 0x60];
const PERMUTED_6: &[u8] = &[0x77, 0xFA, 0x83, 0xE1, 0x83, 0xC5, 0x40];
const SOBOL_6: &[u8] = &[0xB0, 0x0C, 0xBC, 0xDF, 0xD0, 0xDB, 0x78, 0x0A, 0x7D, 0x74, 0x96, 0x34, 0x3C, 0x22, 0x09, 0x81, 0x50, 0x17];
const KOCIS_6: &[u8] = &[0xF7, 0xFA, 0x83, 0xE1, 0x83, 0xC5, 0x40];

/// Calls with buffers of exactly these lengths in the midst of guard bytes; gives the answer and the bytes of `out`.
fn call(plan: &[u8], index: u64, room: usize) -> (u64, Vec<u8>) {
    let mut input = vec![FILL; GUARD];
    input.extend_from_slice(plan);
    input.extend_from_slice(&[FILL; GUARD]);
    let before = input.clone();
    let mut out = vec![FILL; GUARD + room + GUARD];
    let answer = point(&input[GUARD..GUARD + plan.len()], index, &mut out[GUARD..GUARD + room]);
    assert_eq!(input, before, "the plan is only read");
    let (front, rest) = out.split_at(GUARD);
    let (inside, back) = rest.split_at(room);
    assert!(front.iter().chain(back).all(|&b| b == FILL), "nothing beyond the buffer is touched");
    (answer.map_or_else(|refusal| refusal.number(), |()| 0), inside.to_vec())
}

fn gives(plan: &[u8], index: u64, numerators: &[u64]) {
    let bytes: Vec<u8> = numerators.iter().flat_map(|x| x.to_be_bytes()).collect();
    for more in [0, 1, 8, 17] {
        let (code, out) = call(plan, index, bytes.len() + more);
        assert_eq!(code, 0, "plan {plan:x?}, index {index}");
        assert_eq!(out[..bytes.len()], bytes, "plan {plan:x?}, index {index}");
        assert!(out[bytes.len()..].iter().all(|&b| b == FILL), "nothing beyond the point is touched");
    }
}

fn refuses(plan: &[u8], index: u64, room: usize, number: u64) {
    let (code, out) = call(plan, index, room);
    assert_eq!(code, number, "plan {plan:x?}, index {index}, room {room}");
    assert!(out.iter().all(|&b| b == FILL), "a refused call changes no byte");
}

#[test]
fn reference_points() {
    gives(&[0x08, 0x10], 17, &[9685512225]); // R1
    gives(&[0x08, 0x08], 6, &[1610612736]); // R2
    for (digit, image) in [0, 2, 5, 3, 1, 4, 6].into_iter().enumerate() {
        gives(&[0x48, 0x30], digit as u64, &[image * 1977326743]); // R3: one digit gives its image times 7^11
    }
    gives(&[0x48, 0x20], 6, &[4394531250]); // R4
    for (digit, image) in [0, 8, 4, 2, 6, 1, 9, 5, 3, 7].into_iter().enumerate() {
        gives(&[0xC8, 0x48], digit as u64, &[image * 1000000000]); // base 10 with the permutation of Kocis and Whiten
    }
    // the bases 2 3 5 7 11 13 with those permutations: 3/4, 2/9, 1/5, 6/7, 2/11 and 12/13 in source document 001
    let third = [3 << 30, 2 * 3u64.pow(19), 5u64.pow(13), 6 * 7u64.pow(11), 2 * 11u64.pow(9), 12 * 13u64.pow(8)];
    gives(&[0xF0, 0x08, 0x10, 0x20, 0x30, 0x50, 0x60], 3, &third);
    for (i, m) in [1u64, 3, 7, 5, 7, 43].into_iter().enumerate() {
        gives(&[0x89, 0xBF, 0x80], (2 << i) - 1, &[m << (31 - i)]); // R5: index 2^i - 1 gives v_i
    }
    gives(&[0x89, 0xBF, 0x80], 4, &[536870912]); // R6
    gives(&[0x10, 0x08, 0x10], 1, &[2147483648, 3486784401]); // R7
}

#[test]
fn six_axes() {
    gives(HALTON_6, LAST, &[4294967295, 2132907247, 1060315563, 7479082473, 8243781525, 7070012799]);
    gives(PERMUTED_6, LAST, &[4294967295, 149043503380, 29161618161, 5619897279, 18779339227, 103078887928]);
    gives(SOBOL_6, LAST, &[1, 4294967295, 3305133397, 1342505107, 1077097267, 2113662991]);
    gives(KOCIS_6, LAST, &[4294967295, 146202519520, 22174341318, 10131774020, 6573049624, 17428087071]);
    gives(KOCIS_6, 123456789, &[2830359264, 247700788263, 28012406375, 5314415295, 17267347592, 118830302903]);
    gives(SOBOL_6, 0, &[0; 6]);
    gives(KOCIS_6, 0, &[0; 6]);
}

#[test]
fn plans_are_refused_first() {
    let refused: [(&[u8], u64); 16] = [
        (&[], 1),
        (&[0x08], 1),
        (&SOBOL_6[..17], 1),
        (&KOCIS_6[..6], 1),
        (&[0xC8], 1),
        (&[0x00], 3),
        (&[0x38], 3),
        (&[0xF8], 3),
        (&[0x08, 0x00], 4),
        (&[0x10, 0x08, 0x18], 5),
        (&[0x8E, 0x80], 6),
        (&[0x89, 0x00], 7),
        (&[0x88, 0x80], 8),
        (&[0x90, 0x00], 9),
        (&[0x10, 0x08, 0x11], 10),
        (&[0x08, 0x08, 0x00], 10),
    ];
    for (plan, number) in refused {
        for (index, room) in [(0, 64), (LAST + 1, 64), (0, 0), (u64::MAX, 7)] {
            refuses(plan, index, room, number);
        }
    }
}

#[test]
fn then_the_index_then_the_room() {
    for index in [LAST + 1, LAST + 2, u64::MAX] {
        refuses(SOBOL_6, index, 64, 11);
        refuses(SOBOL_6, index, 0, 11);
    }
    for room in 0..48 {
        refuses(HALTON_6, LAST, room, 13);
        refuses(SOBOL_6, 0, room, 13);
        refuses(KOCIS_6, LAST, room, 13);
    }
}
