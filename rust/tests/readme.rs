//! The example of README.md, line by line.
#![cfg(core_error)]
use hisowake::{Cut, Plan};

const README: &str = include_str!("../../README.md");

#[test]
fn example() -> Result<(), Box<dyn std::error::Error>> {
    let plan: Plan = "halton 2 3".parse()?; // or Plan::read(&[0x10, 0x08, 0x10])?
    let point = plan.point(1)?; // 2147483648 of 2^32, 3486784401 of 3^21
    let points = plan.points(0, 6)?; // an iterator
    let count = plan.count(0, 6, &[Cut::new(1, 2), Cut::new(1, 3)])?; // 1 inside, bound 20

    assert_eq!(plan, Plan::read(&[0x10, 0x08, 0x10])?);
    assert_eq!(*point, [2147483648, 3486784401]);
    assert_eq!([plan.denominator(0), plan.denominator(1)], [Some(1 << 32), Some(3u64.pow(21))]);
    assert_eq!(points.len(), 6);
    assert_eq!((count.inside, count.bound), (1, 20));

    let example = README.split("```rust\n").nth(1).and_then(|rest| rest.split("```").next()).expect("an example in Rust");
    assert!(example.lines().count() == 4 && example.lines().all(|line| include_str!("readme.rs").contains(line)), "{example}");
    Ok(())
}
