//! The words of plans are those of the proved builder: the lines of the program `builds` are plans here if and only if they are plans there, and
//! the same ones.
use hisowake::Plan;
use std::collections::HashSet;

const SOURCE: &str = include_str!("../../crates/builds/src/main.rt");
const STDOUT: &str = include_str!("../../crates/builds/stdout");

/// The lines that the program builds: the strings of its calls of `build` and `build_into`.
fn lines() -> Vec<String> {
    let calls = SOURCE.lines().filter_map(|line| line.trim().strip_prefix("build(b\"").or(line.trim().strip_prefix("build_into(b\"")));
    calls.map(|rest| rest.split('"').next().unwrap().replace("\\t", "\t")).collect()
}

/// Each line that the program prints, with the lines below it: the bytes and the words of its plan, or what is wrong.
fn answers() -> Vec<(String, Vec<String>)> {
    let mut answers: Vec<(String, Vec<String>)> = Vec::new();
    for line in STDOUT.lines() {
        match line.strip_prefix("    ") {
            Some(answer) => answers.last_mut().unwrap().1.push(answer.into()),
            None => answers.push((line.into(), Vec::new())),
        }
    }
    answers
}

#[test]
fn every_line_is_answered() {
    let (mut built, mut answered) = (lines(), answers().into_iter().map(|(line, _)| line).collect::<Vec<_>>());
    built.sort();
    answered.sort();
    assert!(built.len() > 40 && built.iter().all(|line| !line.contains('\\')));
    assert_eq!(built, answered);
}

#[test]
fn the_same_plans() {
    let (mut plans, mut others, mut families) = (0, 0, HashSet::new());
    for (line, answer) in answers() {
        match (&answer[..], line.parse::<Plan>()) {
            ([bytes, words], Ok(plan)) => {
                plans += 1;
                families.insert(plan.family());
                assert_eq!(&plan.bytes().iter().map(|byte| format!("{byte:02x}")).collect::<String>(), bytes, "{line}");
                assert_eq!(&plan.to_string(), words, "{line}");
            }
            ([message], Ok(_)) => assert_eq!(message, "the plan has no room in the buffer", "{line}"),
            ([_], Err(_)) => others += 1,
            (answer, parsed) => panic!("{line}: {answer:?} there, {parsed:?} here"),
        }
    }
    assert!(plans > 5 && others > 30 && families.len() == 4);
}
