//! The C header and this crate have the same version, sizes and refusals, and the plans that the header spells are those of this crate.
use hisowake::{Family, Plan, Refusal, AXES_MAX, PLAN_MAX};

const HEADER: &str = include_str!("../../include/hisowake.h");

/// What a macro of the header stands for.
fn macro_of(name: &str) -> &str {
    let define = format!("#define {name} ");
    let line = HEADER.lines().find(|line| line.starts_with(&define)).unwrap_or_else(|| panic!("no macro {name}"));
    line[define.len()..].split(" /*").next().unwrap().trim()
}

#[test]
fn version() {
    let parts = ["MAJOR", "MINOR", "PATCH"].map(|part| macro_of(&format!("HISOWAKE_VERSION_{part}")).to_string());
    assert_eq!(parts.join("."), env!("CARGO_PKG_VERSION"));
    assert_eq!(macro_of("HISOWAKE_VERSION"), format!("\"{}\"", env!("CARGO_PKG_VERSION")));
}

#[test]
fn sizes() {
    assert_eq!(macro_of("HISOWAKE_AXES_MAX"), AXES_MAX.to_string());
    assert_eq!(macro_of("HISOWAKE_PLAN_MAX"), PLAN_MAX.to_string());
    assert_eq!(macro_of("HISOWAKE_POINT_MAX"), (8 * AXES_MAX).to_string());
    assert_eq!(macro_of("HISOWAKE_WINDOW_MAX"), (8 * AXES_MAX).to_string());
    assert_eq!(macro_of("HISOWAKE_COUNT_SIZE"), "16");
}

/// `HISOWAKE_BAD_BASE = 4` is `BadBase`.
#[test]
fn refusals() {
    let code = |line: &str| -> Option<(String, u64)> {
        let (name, rest) = line.trim().strip_prefix("HISOWAKE_")?.split_once(" = ")?;
        let number = rest.split(|c: char| !c.is_ascii_digit()).next()?.parse().ok()?;
        let word = |word: &str| word[..1].to_string() + &word[1..].to_lowercase();
        Some((name.split('_').map(word).collect(), number))
    };
    let codes: Vec<_> = HEADER.lines().filter_map(code).collect();
    let mut known = vec![("Ok".to_string(), 0)];
    known.extend(Refusal::ALL.map(|refusal| (format!("{refusal:?}"), refusal.number())));
    assert_eq!(codes, known);
}

/// One of each family: words, then bits, and `=` before the bytes.
#[test]
fn spelled_plans() {
    let spelled = |line: &'static str| -> Option<(&str, &str)> {
        let (left, bytes) = line.strip_prefix(" *   ")?.split_once(" = ")?;
        Some((left.split_once("   ")?.0, bytes))
    };
    let mut families = Vec::new();
    for (words, bytes) in HEADER.lines().filter_map(spelled) {
        let plan: Plan = words.parse().unwrap();
        assert_eq!(plan.bytes().iter().map(|byte| format!("{byte:02X}")).collect::<Vec<_>>().join(" "), bytes, "{words}");
        families.push(plan.family());
    }
    assert_eq!(families, [Family::Halton, Family::Permuted, Family::Sobol, Family::Kocis]);
}
