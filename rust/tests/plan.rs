//! The typed calls: what a plan says of itself, its points and counts, and refusals by name.
use hisowake::{calls, Count, Cut, Family, Plan, Refusal, AXES_MAX, PLAN_MAX};
use std::collections::HashSet;

const END: u64 = 4294967296;

const HALTON_6: &[u8] = &[0x30, 0x08, 0x10, 0x20, 0x30, 0x50, 0x60];
const PERMUTED_6: &[u8] = &[0x77, 0xFA, 0x83, 0xE1, 0x83, 0xC5, 0x40];
const SOBOL_6: &[u8] = &[0xB0, 0x0C, 0xBC, 0xDF, 0xD0, 0xDB, 0x78, 0x0A, 0x7D, 0x74, 0x96, 0x34, 0x3C, 0x22, 0x09, 0x81, 0x50, 0x17];
const KOCIS_6: &[u8] = &[0xF7, 0xFA, 0x83, 0xE1, 0x83, 0xC5, 0x40];

fn plan(bytes: &[u8]) -> Plan {
    Plan::read(bytes).expect("an accepted plan")
}

#[test]
fn what_a_plan_says_of_itself() {
    let plans = [(HALTON_6, Family::Halton), (PERMUTED_6, Family::Permuted), (SOBOL_6, Family::Sobol), (KOCIS_6, Family::Kocis)];
    for (bytes, family) in plans {
        let p = plan(bytes);
        assert_eq!((p.bytes(), p.family(), p.axes()), (bytes, family, AXES_MAX));
        assert_eq!(family as u8, bytes[0] >> 6);
        assert_eq!(p.denominator(AXES_MAX), None);
    }
    // a base of each number of digits in the scope's list, and both ends of the field
    for (base, depth) in [(2u64, 32), (3, 21), (5, 14), (255, 5), (256, 4)] {
        let field = (base - 1) as u8;
        let p = plan(&[0x08 | field >> 5, field << 3]);
        assert_eq!(p.denominator(0), Some(base.pow(depth)));
    }
    for bytes in [PERMUTED_6, KOCIS_6] {
        let denominators: Vec<_> = (0..6).map(|axis| plan(bytes).denominator(axis).unwrap()).collect();
        assert_eq!(denominators, [256u64.pow(4), 81u64.pow(6), 125u64.pow(5), 49u64.pow(6), 121u64.pow(5), 169u64.pow(5)]);
    }
    assert!((0..6).all(|axis| plan(SOBOL_6).denominator(axis) == Some(END)));
}

/// Every point is what the call on bytes writes, below its denominators.
#[test]
fn points() {
    for bytes in [HALTON_6, PERMUTED_6, SOBOL_6, KOCIS_6] {
        let p = plan(bytes);
        for index in (0..1000).chain(END - 1000..END) {
            let mut out = [0; 8 * AXES_MAX];
            calls::point(bytes, index, &mut out).unwrap();
            let point = p.point(index).unwrap();
            assert_eq!(point.iter().flat_map(|x| x.to_be_bytes()).collect::<Vec<_>>(), out);
            assert!(point.iter().enumerate().all(|(axis, &x)| x < p.denominator(axis).unwrap()));
        }
    }
    assert_eq!(plan(&[0x08, 0x08]).point(6).unwrap().len(), 1);
}

/// A run's points are those of its indexes, in order, and as many.
#[test]
fn runs() {
    for bytes in [HALTON_6, PERMUTED_6, SOBOL_6, KOCIS_6] {
        let p = plan(bytes);
        for (start, count) in [(0, 0), (0, 1), (5, 1000), (END - 300, 300), (END - 1, 1), (END, 0)] {
            let points = p.points(start, count).unwrap();
            assert_eq!((points.len(), points.size_hint()), (count as usize, (count as usize, Some(count as usize))));
            let expected: Vec<_> = (start..start + count).map(|index| p.point(index).unwrap()).collect();
            assert_eq!(points.collect::<Vec<_>>(), expected);
        }
        for (start, count) in [(END, 1), (END - 1, 2), (END + 1, 0), (0, END + 1), (u64::MAX, 0), (u64::MAX, 1), (2, u64::MAX)] {
            assert_eq!(p.points(start, count), Err(Refusal::OutOfRange));
        }
    }
    let p = plan(HALTON_6);
    let mut all = p.points(0, END).unwrap();
    assert_eq!(all.len() as u64, END);
    assert_eq!(all.nth(1000000), p.point(1000000).ok());
    assert_eq!(all.len() as u64, END - 1000001);
    assert_eq!(all.nth(all.len() - 1), p.point(END - 1).ok());
    assert_eq!((all.len(), all.next(), all.nth(usize::MAX), all.next()), (0, None, None, None));
}

#[test]
fn plans_as_keys() {
    let bytes = [HALTON_6, PERMUTED_6, SOBOL_6, KOCIS_6, HALTON_6];
    let plans: HashSet<_> = bytes.into_iter().map(|bytes| Plan::try_from(bytes).unwrap()).collect();
    assert_eq!(plans.len(), 4);
    assert!(plans.contains(&plan(SOBOL_6)));
    let points: HashSet<_> = plan(HALTON_6).points(0, 1000).unwrap().collect();
    assert_eq!(points.len(), 1000);
    assert_eq!([Cut::new(1, 2), Cut::new(2, 4), Cut::new(1, 2)].into_iter().collect::<HashSet<_>>().len(), 2);
    assert_eq!(Plan::try_from(&[0xC8][..]), Err(Refusal::Truncated));
}

#[test]
fn counts() {
    let r7 = plan(&[0x10, 0x08, 0x10]);
    assert_eq!(r7.count(0, 6, &[Cut::new(1, 2), Cut::new(1, 3)]), Ok(Count { inside: 1, bound: 20 }));
    assert_eq!(r7.count(END, 0, &[Cut::new(1, 2); 2]), Ok(Count { inside: 0, bound: 1 }));
    assert_eq!(plan(&[0xC8, 0x48]).count(0, 10, &[Cut::new(3, 10)]), Ok(Count { inside: 3, bound: 19 })); // digits 0, 3 and 5
    assert_eq!(plan(SOBOL_6).count(5, 3000, &[Cut::new(7, 7); 6]), Ok(Count { inside: 3000, bound: 0 }));
    assert_eq!(plan(SOBOL_6).count(5, 3000, &[Cut::new(0, 7); 6]), Ok(Count { inside: 0, bound: 0 }));
}

#[test]
fn refused_plans() {
    let refused: [(&[u8], Refusal); 16] = [
        (&[], Refusal::Truncated),
        (&[0xC8], Refusal::Truncated),
        (&[0x38], Refusal::BadAxisCount),
        (&[0x08, 0x00], Refusal::BadBase),
        (&[0x10, 0x08, 0x18], Refusal::CommonFactor),
        (&[0x8E, 0x80], Refusal::BadDegree),
        (&[0x8A, 0x70], Refusal::NotPrimitive), // x^4 + x^3 + x^2 + x + 1
        (&[0x88, 0x80], Refusal::EvenNumber),
        (&[0x90, 0x00], Refusal::RepeatedPolynomial),
        (&[0x10, 0x08, 0x11], Refusal::TrailingData),
        (&[0x08, 0x08, 0x00], Refusal::TrailingData),
        // of family 3
        (&[0xC0], Refusal::BadAxisCount),
        (&[0xF8], Refusal::BadAxisCount),
        (&[0xC8, 0x00], Refusal::BadBase),
        (&[0xD0, 0x08, 0x18], Refusal::CommonFactor),
        (&[0xD0, 0x08, 0x11], Refusal::TrailingData),
    ];
    for (bytes, refusal) in refused {
        assert_eq!(Plan::read(bytes), Err(refusal));
    }
    // longer than any plan
    let mut long = HALTON_6.to_vec();
    long.resize(10 * PLAN_MAX, 0);
    assert_eq!(Plan::read(&long), Err(Refusal::TrailingData));
    // the first byte has the family
    for bytes in (0..=u16::MAX).map(u16::to_be_bytes) {
        assert!(Plan::read(&bytes[..1]) != Err(Refusal::BadFamily) && Plan::read(&bytes) != Err(Refusal::BadFamily));
    }
}

#[test]
fn refused_calls() {
    let p = plan(HALTON_6);
    assert!(p.point(END - 1).is_ok());
    for index in [END, END + 1, u64::MAX] {
        assert_eq!(p.point(index), Err(Refusal::OutOfRange));
    }
    for cuts in 0..20 {
        let window = vec![Cut::new(1, 2); cuts];
        let answer = if cuts == 6 { Ok(()) } else { Err(Refusal::BadWindow) };
        assert_eq!(p.count(0, 6, &window).map(|_| ()), answer);
        assert_eq!(p.count(END, 1, &window), Err(Refusal::OutOfRange));
        assert_eq!(p.count(u64::MAX, 2, &window), Err(Refusal::OutOfRange));
    }
    for bad in [Cut::new(0, 0), Cut::new(2, 1), Cut::new(0, 16777217), Cut::new(u32::MAX, u32::MAX)] {
        for axis in 0..AXES_MAX {
            let mut window = [Cut::new(1, 2); AXES_MAX];
            window[axis] = bad;
            assert_eq!(p.count(0, 6, &window), Err(Refusal::BadWindow));
        }
    }
}

#[test]
fn refusals_by_number() {
    for number in 0..100 {
        match Refusal::from_number(number) {
            Some(refusal) => {
                assert_eq!(refusal.number(), number);
                assert!(refusal.to_string().starts_with(&format!("refused {number}: ")));
            }
            None => assert!(number == 0 || number == 12 || number > 14),
        }
    }
}

#[cfg(core_error)]
#[test]
fn refusals_are_errors() {
    let error: Box<dyn std::error::Error> = Refusal::OutOfRange.into();
    assert_eq!(error.to_string(), "refused 11: the index or the run's end is out of range");
}
