//! The window count from Rust: reference counts, edges, refusals and their order, with guard bytes round every buffer.
use hisowake::calls::{point, window_count};

const FILL: u8 = 0x5A;
const GUARD: usize = 32;
const END: u64 = 4294967296;
const MOST: u32 = 16777216;

const R7: &[u8] = &[0x10, 0x08, 0x10];
const HALTON_6: &[u8] = &[0x30, 0x08, 0x10, 0x20, 0x30, 0x50, 0x60];
const PERMUTED_6: &[u8] = &[0x77, 0xFA, 0x83, 0xE1, 0x83, 0xC5, 0x40];
const SOBOL_6: &[u8] = &[0xB0, 0x0C, 0xBC, 0xDF, 0xD0, 0xDB, 0x78, 0x0A, 0x7D, 0x74, 0x96, 0x34, 0x3C, 0x22, 0x09, 0x81, 0x50, 0x17];
const KOCIS_6: &[u8] = &[0xF7, 0xFA, 0x83, 0xE1, 0x83, 0xC5, 0x40];
const HALVES: [(u32, u32); 6] = [(1, 2); 6];

/// A window's bytes: u and then q for each axis.
fn bytes(cuts: &[(u32, u32)]) -> Vec<u8> {
    cuts.iter().flat_map(|(u, q)| [u.to_be_bytes(), q.to_be_bytes()]).flatten().collect()
}

/// These bytes in the midst of guard bytes.
fn guarded(inner: &[u8]) -> Vec<u8> {
    [&[FILL; GUARD], inner, &[FILL; GUARD]].concat()
}

/// Calls with buffers of exactly these lengths; gives the answer and the bytes of `out`.
fn call(plan: &[u8], start: u64, count: u64, window: &[u8], room: usize) -> (u64, Vec<u8>) {
    let (lent_plan, lent_window) = (guarded(plan), guarded(window));
    let mut out = vec![FILL; GUARD + room + GUARD];
    let answer = window_count(
        &lent_plan[GUARD..GUARD + plan.len()],
        start,
        count,
        &lent_window[GUARD..GUARD + window.len()],
        &mut out[GUARD..GUARD + room],
    );
    assert!(lent_plan == guarded(plan) && lent_window == guarded(window), "the plan and the window are only read");
    let (front, rest) = out.split_at(GUARD);
    let (inside, back) = rest.split_at(room);
    assert!(front.iter().chain(back).all(|&b| b == FILL), "nothing beyond the buffer is touched");
    (answer.map_or_else(|refusal| refusal.number(), |()| 0), inside.to_vec())
}

fn gives(plan: &[u8], start: u64, count: u64, cuts: &[(u32, u32)], s: u64, bound: u64) {
    for more in [0, 1, 16, 31] {
        let (code, out) = call(plan, start, count, &bytes(cuts), 16 + more);
        assert_eq!(code, 0, "plan {plan:x?}, start {start}, count {count}, cuts {cuts:?}");
        assert_eq!(out[..8], s.to_be_bytes(), "S: plan {plan:x?}, start {start}, count {count}, cuts {cuts:?}");
        assert_eq!(out[8..16], bound.to_be_bytes(), "bound: plan {plan:x?}, start {start}, count {count}");
        assert!(out[16..].iter().all(|&b| b == FILL), "nothing beyond the two numbers is touched");
    }
}

fn refuses(plan: &[u8], start: u64, count: u64, window: &[u8], room: usize, number: u64) {
    let (code, out) = call(plan, start, count, window, room);
    assert_eq!(code, number, "plan {plan:x?}, start {start}, count {count}, window {window:x?}, room {room}");
    assert!(out.iter().all(|&b| b == FILL), "a refused call changes no byte");
}

#[test]
fn reference_counts() {
    gives(R7, 0, 6, &[(1, 2), (1, 3)], 1, 20); // R8
    gives(R7, END - 6, 6, &[(1, 2), (1, 3)], 1, 20); // K from the count, not from the last index
    gives(R7, 1, 1, &[(1, 2), (1, 1)], 0, 6); // index 1 is (1/2, 1/3): on its cut
    gives(R7, 1, 1, &[(1, 1), (1, 3)], 0, 6);
    gives(R7, 1, 1, &[(MOST / 2 + 1, MOST), (MOST / 3 + 1, MOST)], 1, 6);
    for plan in [[0x48, 0x20], [0xC8, 0x20]] {
        for k in 0..=25 {
            gives(&plan, 0, 25, &[(k, 25)], k as u64, 13); // the first 25 points of base 5 are the multiples of 1/25
        }
    }
    for k in 0..=8 {
        gives(&[0x89, 0xBF, 0x80], 0, 8, &[(k, 8)], k as u64, 0);
    }
}

#[test]
fn all_or_none() {
    for (plan, bound) in [(HALTON_6, 289036839), (PERMUTED_6, 241246526451735), (SOBOL_6, 0), (KOCIS_6, 241246526451735)] {
        for start in [0, 1000000, END - 3000] {
            gives(plan, start, 3000, &[(1, 1), (7, 7), (MOST, MOST), (1, 1), (65537, 65537), (256, 256)], 3000, bound);
            gives(plan, start, 3000, &[(1, 1), (1, 1), (1, 1), (1, 1), (0, 1), (1, 1)], 0, bound);
        }
        for start in [0, 5, END] {
            gives(plan, start, 0, &HALVES, 0, (bound > 0) as u64);
        }
    }
}

/// The count is the number of indexes whose point, as the other call writes it, is inside.
#[test]
fn counts_the_points() {
    let large = [256, 81, 125, 49, 121, 169];
    for (plan, bases) in [(HALTON_6, [2, 3, 5, 7, 11, 13]), (PERMUTED_6, large), (SOBOL_6, [2; 6]), (KOCIS_6, large)] {
        let denominators = bases.map(|b: u64| (0..).map(|k| b.pow(k)).find(|&d| d >= END).unwrap());
        for (start, count) in [(0, 1025), (123456789, 2048), (END - 1500, 1500)] {
            for cuts in [[(2, 3); 6], [(1, 2), (3, 4), (1, 1), (15, 16), (4, 5), (MOST - 1, MOST)]] {
                let mut s = 0;
                for index in start..start + count {
                    let mut out = [0; 48];
                    assert_eq!(point(plan, index, &mut out), Ok(()));
                    let inside = |i: usize| {
                        let x = u64::from_be_bytes(out[8 * i..8 * i + 8].try_into().unwrap());
                        x as u128 * (cuts[i].1 as u128) < cuts[i].0 as u128 * denominators[i] as u128
                    };
                    s += (0..6).all(inside) as u64;
                }
                let (code, out) = call(plan, start, count, &bytes(&cuts), 16);
                assert_eq!((code, &out[..8]), (0, &s.to_be_bytes()[..]), "plan {plan:x?}, start {start}, cuts {cuts:?}");
            }
        }
    }
}

#[test]
fn plans_are_refused_first() {
    let refused: [(&[u8], u64); 5] = [(&[], 1), (&SOBOL_6[..17], 1), (&[0xC8], 1), (&[0x10, 0x08, 0x18], 5), (&[0x10, 0x08, 0x11], 10)];
    let window = bytes(&HALVES);
    for (plan, number) in refused {
        refuses(plan, 0, 6, &window[..16], 16, number);
        refuses(plan, END, 1, &window[..16], 16, number);
        refuses(plan, 0, 6, &window[..15], 16, number);
        refuses(plan, 0, 6, &window[..16], 15, number);
        refuses(plan, u64::MAX, u64::MAX, &[], 0, number);
    }
}

#[test]
fn then_the_range_the_window_and_the_room() {
    let window = bytes(&HALVES);
    for (start, count) in
        [(END, 1), (END - 1, 2), (0, END + 1), (END + 1, 0), (u64::MAX, 1), (u64::MAX, 2), (1, u64::MAX), (1 << 63, 1 << 63)]
    {
        refuses(SOBOL_6, start, count, &window, 16, 11);
        refuses(SOBOL_6, start, count, &window[..47], 16, 11);
        refuses(SOBOL_6, start, count, &window, 15, 11);
        refuses(SOBOL_6, start, count, &[], 0, 11);
    }
    for length in 0..48 {
        refuses(HALTON_6, 0, 6, &window[..length], 16, 14);
        refuses(HALTON_6, 0, 6, &window[..length], 15, 14);
    }
    refuses(HALTON_6, 0, 6, &[&window[..], &[0]].concat(), 16, 14);
    for bad in [(0, 0), (1, 0), (2, 1), (MOST + 1, MOST), (0, MOST + 1), (MOST + 1, MOST + 1), (u32::MAX, 1), (0, u32::MAX)] {
        for axis in 0..6 {
            let mut cuts = HALVES;
            cuts[axis] = bad;
            for plan in [PERMUTED_6, KOCIS_6] {
                refuses(plan, END - 1, 1, &bytes(&cuts), 16, 14);
                refuses(plan, END, 0, &bytes(&cuts), 0, 14);
            }
        }
    }
    for room in 0..16 {
        refuses(HALTON_6, 0, END, &window, room, 13);
        refuses(SOBOL_6, END, 0, &window, room, 13);
        refuses(KOCIS_6, 0, END, &window, room, 13);
    }
}
