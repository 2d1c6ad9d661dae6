//! The steps of written examples.

use crate::cases::{read_cases, Line, Step};
use std::fs;

/// A step that is no loop, and the name of its case.
pub struct Example {
    pub(crate) case: String,
    pub(crate) line: Line,
}

/// The steps of files of examples; those of a loop once.
pub fn read(files: &[String]) -> Result<Vec<Example>, String> {
    let mut examples = Vec::new();
    for file in files {
        let text = fs::read_to_string(file).map_err(|error| format!("{file}: {error}"))?;
        let cases = read_cases(&text).map_err(|wrong| format!("{file}: {wrong}"))?;
        examples.extend(cases.into_iter().flat_map(|case| steps(&case.name, case.steps)));
    }
    Ok(examples)
}

fn steps(case: &str, lines: Vec<Line>) -> Vec<Example> {
    let step = |line: Line| match line.step {
        Step::Loop { body, .. } => steps(case, body),
        _ => vec![Example { case: case.to_string(), line }],
    };
    lines.into_iter().flat_map(step).collect()
}
