//! Plans and cuts as words: what they spell, that each plan's words parse to it again, and what is wrong with other texts.
use hisowake::{Cut, Expected, Family, ParseError, Plan, Refusal, AXES_MAX};

/// Numbers by splitmix64.
struct Random(u64);

impl Random {
    fn below(&mut self, n: u64) -> u64 {
        self.0 = self.0.wrapping_add(0x9E3779B97F4A7C15);
        let x = (self.0 ^ self.0 >> 30).wrapping_mul(0xBF58476D1CE4E5B9);
        let x = (x ^ x >> 27).wrapping_mul(0x94D049BB133111EB);
        (x ^ x >> 31) % n
    }
}

/// Bits, as a text of 0 and 1, packed into bytes.
fn packed(bits: &str) -> Vec<u8> {
    let fill = (8 - bits.len() % 8) % 8;
    let filled = format!("{bits}{}", "0".repeat(fill));
    filled.as_bytes().chunks(8).map(|byte| byte.iter().fold(0, |n, bit| n << 1 | (bit - b'0'))).collect()
}

/// Words and bits of the same plan: the words parse to the plan of these bytes, which writes the words.
fn spells(words: &str, bits: &str) {
    let plan = Plan::read(&packed(bits)).unwrap_or_else(|refusal| panic!("{words}: {refusal}"));
    assert_eq!(words.parse(), Ok(plan), "{words}");
    assert_eq!(plan.to_string(), words);
    assert_eq!(format!("{plan:?}"), format!("Plan({words})"));
}

/// The number of a polynomial's degree.
fn degree(polynomial: u64) -> usize {
    63 - polynomial.leading_zeros() as usize
}

/// Words and bits of a Sobol axis.
fn axis(polynomial: u64, m: &[u64]) -> (String, String) {
    let d = degree(polynomial);
    let mut bits = format!("{d:04b}");
    if d > 1 {
        bits += &format!("{polynomial:b}")[1..d];
    }
    for (i, m) in m.iter().enumerate() {
        bits += &format!("{m:0width$b}", width = i + 1);
    }
    let words: Vec<_> = m.iter().map(|m| m.to_string()).collect();
    (format!(" {polynomial}:{}", words.join(",")), bits)
}

/// The primitive polynomials of degree 1 to 12: those that are accepted.
fn primitive() -> Vec<u64> {
    let ones = |p| vec!["1"; degree(p)].join(",");
    (3..8192).step_by(2).filter(|&p| format!("sobol {p}:{}", ones(p)).parse::<Plan>().is_ok()).collect()
}

#[test]
fn every_base() {
    for base in 2..=256 {
        spells(&format!("halton {base}"), &format!("00001{:08b}", base - 1));
        spells(&format!("permuted {base}"), &format!("01001{:08b}", base - 1));
        spells(&format!("kocis {base}"), &format!("11001{:08b}", base - 1));
    }
}

#[test]
fn every_polynomial() {
    let primitive = primitive();
    // there are phi(2^d - 1) / d of degree d
    assert_eq!(primitive.len(), 1 + 1 + 2 + 2 + 6 + 6 + 18 + 16 + 48 + 60 + 176 + 144);
    for p in primitive {
        let (words, bits) = axis(p, &vec![1; degree(p)]);
        spells(&format!("sobol{words}"), &format!("10001{bits}"));
    }
    spells("sobol 0", "100010000");
}

fn common_divisor(a: u64, b: u64) -> u64 {
    if b == 0 {
        a
    } else {
        common_divisor(b, a % b)
    }
}

#[test]
fn random_plans() {
    let mut random = Random(20260517);
    let primitive = primitive();
    for _ in 0..3000 {
        let axes = 1 + random.below(6) as usize;
        let mut bases: Vec<u64> = Vec::new();
        while bases.len() < axes {
            let base = 2 + random.below(255);
            if bases.iter().all(|&b| common_divisor(b, base) == 1) {
                bases.push(base);
            }
        }
        let words: String = bases.iter().map(|b| format!(" {b}")).collect();
        let bits: String = bases.iter().map(|b| format!("{:08b}", b - 1)).collect();
        spells(&format!("halton{words}"), &format!("00{axes:03b}{bits}"));
        spells(&format!("permuted{words}"), &format!("01{axes:03b}{bits}"));
        spells(&format!("kocis{words}"), &format!("11{axes:03b}{bits}"));

        let mut polynomials: Vec<u64> = Vec::new();
        while polynomials.len() < axes {
            let p = if random.below(8) == 0 { 1 } else { primitive[random.below(primitive.len() as u64) as usize] };
            if !polynomials.contains(&p) {
                polynomials.push(p);
            }
        }
        let (mut words, mut bits) = (String::from("sobol"), format!("10{axes:03b}"));
        for p in polynomials {
            let m: Vec<u64> = (0..degree(p)).map(|i| 2 * random.below(1 << i) + 1).collect();
            let (w, b) = if p == 1 { (" 0".into(), "0000".into()) } else { axis(p, &m) };
            words += &w;
            bits += &b;
        }
        spells(&words, &bits);
    }
}

#[test]
fn blanks_and_zeros() {
    for text in [" halton 2 3", "halton\t2 3 ", "  halton \t 2  3  \t", "halton 002 0000000000000000000000003"] {
        assert_eq!(text.parse::<Plan>().map(|plan| plan.to_string()), Ok("halton 2 3".into()));
    }
    assert_eq!("sobol 0 011:01,003,0007".parse::<Plan>().map(|plan| plan.to_string()), Ok("sobol 0 11:1,3,7".into()));
}

fn expects(text: &str, what: Expected, at: usize, message: &str) {
    let error = text.parse::<Plan>().unwrap_err();
    assert_eq!(error, ParseError::Expected { what, at }, "{text}");
    assert_eq!(error.to_string(), format!("byte {at}: expected {message}"), "{text}");
}

#[test]
fn what_was_expected_and_where() {
    let family = "halton, permuted, sobol or kocis";
    for (text, at) in
        [("", 0), ("   ", 3), ("Halton 2", 0), (" haltons 2", 1), ("2 3", 0), ("\u{e9} 2", 0), ("halton\u{a0}2", 0), ("halton\n2", 0)]
    {
        expects(text, Expected::Family, at, family);
    }
    expects(" Kocis 2", Expected::Family, 1, family);
    expects("halton", Expected::Axis, 6, "a word for an axis");
    expects("sobol ", Expected::Axis, 6, "a word for an axis");
    expects("kocis", Expected::Axis, 5, "a word for an axis");
    expects("halton 2 3 5 7 11 13 17", Expected::End, 21, "no more than 6 axes");
    for base in ["0", "257", "+2", "-2", "2.0", "0x2", "2,3", "4294967298", "99999999999999999999", "\u{662}", "x", "2\n", "2\r"] {
        expects(&format!("permuted 3 {base}"), Expected::Base, 11, "a base from 2 to 256");
    }
    for axis in ["00", "1", "1:", "11", "8192:1", "8193:1", "x:1", ":1", "-3:1", "4294967299:1", "0:", "00:1"] {
        expects(&format!("sobol 3:1 {axis}"), Expected::Polynomial, 10, "0, or a number from 2 to 8191 and a colon");
    }
    expects("sobol 11:", Expected::Number(1), 9, "m_1, an odd number below 2^1");
    expects("sobol 11:2,3,7", Expected::Number(1), 9, "m_1, an odd number below 2^1");
    expects("sobol 11:1,4,7", Expected::Number(2), 11, "m_2, an odd number below 2^2");
    expects("sobol 11:1,,7", Expected::Number(2), 11, "m_2, an odd number below 2^2");
    expects("sobol 11:1,3", Expected::Number(3), 12, "m_3, an odd number below 2^3");
    expects("sobol 11:1,3,", Expected::Number(3), 13, "m_3, an odd number below 2^3");
    expects("sobol 11:1, 3,7", Expected::Number(2), 11, "m_2, an odd number below 2^2");
    expects("sobol 11:1,3,7,1", Expected::Numbers(3), 14, "no number after m_3");
    expects("sobol 3:1,", Expected::Numbers(1), 9, "no number after m_1");
    expects("sobol 2:x", Expected::Number(1), 8, "m_1, an odd number below 2^1");
}

/// The axis at which the archive refuses, or the even m.
#[test]
fn what_was_refused_and_where() {
    for (text, refusal, at) in [
        ("halton 1", Refusal::BadBase, 7),
        ("halton 2 3 1 x", Refusal::BadBase, 11),
        ("halton 2 4", Refusal::CommonFactor, 9),
        ("permuted 6 5 9 7", Refusal::CommonFactor, 13),
        ("kocis 1", Refusal::BadBase, 6),
        ("kocis 6 5 9 7", Refusal::CommonFactor, 10),
        ("sobol 5:1,1", Refusal::NotPrimitive, 6),
        ("sobol 0 31:1,1,1,1", Refusal::NotPrimitive, 8),
        ("sobol 2:1", Refusal::NotPrimitive, 6),
        ("sobol 0 10:1,2,4", Refusal::NotPrimitive, 8),
        ("sobol 5:0,1", Refusal::NotPrimitive, 6),
        ("sobol 3:0", Refusal::EvenNumber, 8),
        ("sobol 11:1,2,7", Refusal::EvenNumber, 11),
        ("sobol 11:1,002,6", Refusal::EvenNumber, 11),
        ("sobol 0 11:1,3,6 3:1", Refusal::EvenNumber, 15),
        ("sobol 0 3:1 0", Refusal::RepeatedPolynomial, 12),
        ("sobol 11:1,3,7 11:1,1,1", Refusal::RepeatedPolynomial, 15),
    ] {
        let error = text.parse::<Plan>().unwrap_err();
        assert_eq!(error, ParseError::Refused { refusal, at }, "{text}");
        assert_eq!(error.to_string(), format!("byte {at}: {refusal}"));
    }
}

/// Any text gives a plan, whose words parse to it, or an error at a place of the text.
#[test]
fn any_text() {
    let mut random = Random(7);
    let parts = [
        "halton", "permuted", "sobol", "kocis", " ", " ", " ", "0", "1", "2", "3", "5", "11", "257", "8191", ":", ",", "1,3,7", "\t",
        "\u{e9}", "-", "\0",
    ];
    let mut plans = 0;
    for _ in 0..200000 {
        let mut text = String::from(["sobol ", "halton ", "permuted ", "kocis "][random.below(4) as usize]);
        if random.below(8) == 0 {
            text.clear();
        }
        for _ in 0..random.below(12) {
            text += parts[random.below(parts.len() as u64) as usize];
        }
        match text.parse::<Plan>() {
            Ok(plan) => {
                plans += 1;
                assert!(plan.axes() <= AXES_MAX);
                assert_eq!(plan.to_string().parse(), Ok(plan));
            }
            Err(ParseError::Expected { at, .. } | ParseError::Refused { at, .. }) => assert!(text.is_char_boundary(at), "{text:?}"),
            Err(error) => panic!("{text:?}: {error}"),
        }
    }
    assert!(plans > 1000);
}

#[test]
fn cuts() {
    for cut in [Cut::new(0, 1), Cut::new(1, 3), Cut::new(16777216, 16777216), Cut::new(0, 0), Cut::new(u32::MAX, u32::MAX)] {
        assert_eq!(cut.to_string(), format!("{}/{}", cut.u, cut.q));
        assert_eq!(cut.to_string().parse(), Ok(cut));
    }
    for text in ["", "/", "1", "1/", "/3", "1/3/5", "1 /3", "+1/3", "1/4294967296", "a/b", " 1/3", "\u{e9}/3"] {
        assert_eq!(text.parse::<Cut>(), Err(ParseError::Expected { what: Expected::Cut, at: 0 }), "{text}");
    }
}

/// What is written keeps a width, as a `str` does; the longest words of a plan too.
#[test]
fn widths() {
    let most: Vec<u64> = (1..=12).map(|place| (1 << place) - 1).collect();
    let polynomials = primitive().into_iter().filter(|&p| degree(p) == 12).take(AXES_MAX);
    let longest = polynomials.fold(String::from("sobol"), |words, p| words + &axis(p, &most).0);
    assert_eq!(longest.len(), 287);
    for words in [&longest, "halton 2 3", "sobol 0", "kocis 227 229"] {
        let plan: Plan = words.parse().unwrap();
        assert_eq!(format!("{plan:>300}|{plan:*^20}|{plan:12}|{plan}"), format!("{words:>300}|{words:*^20}|{words:12}|{words}"));
    }
    let (family, cut) = (Family::Sobol, Cut::new(1, 3));
    assert_eq!(format!("{family:>8}|{cut:>8}|{cut:8}|"), "   sobol|     1/3|1/3     |");
    let cut = Cut::new(u32::MAX, u32::MAX);
    assert_eq!(format!("{cut:>23}"), "  4294967295/4294967295");
}

#[cfg(core_error)]
#[test]
fn errors() {
    let error: Box<dyn std::error::Error> = "halton 2 4".parse::<Plan>().unwrap_err().into();
    assert_eq!(error.to_string(), "byte 9: refused 5: a base is not coprime to an earlier one");
}
