//! Writes a scenario as a test that reproduces it.

use crate::scenario::{Scenario, BLANK, NEW_STATE};

/// The first lines of each test.
const HEAD: &str = "\
#[test]
fn nothing_differs() {
    use compare::{scenario::Scenario, subject::*};";

/// A Rust test that builds the scenario and then makes the given call.
pub fn as_test(scenario: &Scenario, call: &str) -> String {
    let description = hexadecimal(&scenario.description);
    let (general, auxiliary) = (scenario.general.len(), scenario.auxiliary.len());
    let new = format!("Scenario::new({description}, {general}, {auxiliary})");
    let mut lines = vec![HEAD.to_string(), format!("    let mut scenario = {new};")];
    for (position, (number, new)) in scenario.state.iter().zip(&NEW_STATE).enumerate() {
        if number != new {
            lines.push(format!("    scenario.state[{position}] = {number:#x};"));
        }
    }
    lines.extend(flash_lines("general", &scenario.general));
    lines.extend(flash_lines("auxiliary", &scenario.auxiliary));
    let events = hexadecimal(&scenario.events);
    lines.push(format!("    scenario.events = vec!{events};"));
    if scenario.limit != usize::MAX {
        lines.push(format!("    scenario.limit = {};", scenario.limit));
    }
    lines.push(format!("    scenario.slots = {};", scenario.slots));
    lines.push(format!("    {call}.unwrap();"));
    lines.push("}".to_string());
    lines.join("\n")
}

/// One line for each stretch of equal words that are not blank.
fn flash_lines(array: &str, words: &[u32]) -> Vec<String> {
    let mut lines = Vec::new();
    let mut start = 0;
    while start < words.len() {
        let word = words[start];
        let equal = words[start..].iter().take_while(|other| **other == word);
        let end = start + equal.count();
        if word != BLANK {
            let range = format!("scenario.{array}[{start}..{end}]");
            lines.push(format!("    {range}.fill({word:#x});"));
        }
        start = end;
    }
    lines
}

fn hexadecimal(numbers: &[u32]) -> String {
    let texts: Vec<String> = numbers
        .iter()
        .map(|number| format!("{number:#x}"))
        .collect();
    format!("[{}]", texts.join(", "))
}
