//! A list of calls over buffers of any lengths and contents, and the file that
//! reproduces it.
//!
//! The file is text: a line with the label, five lines `buffer HEX` (literals,
//! ends, sets, kinds, state), then a line for each call: `load HEX`, `run HEX`,
//! `show N`, `clause N`, `variable N`, `write N`.

use checker::driver::Buffers;

#[derive(Clone, Debug, PartialEq, Eq)]
pub enum Call {
    Load(Vec<u8>),
    Run(Vec<u8>),
    Show(u32),
    Clause(u32),
    Variable(u32),
    /// The tidy text, over an output of so many bytes.
    Write(usize),
}

#[derive(Clone, Debug, PartialEq, Eq)]
pub struct Scenario {
    /// What the scenario is for.
    pub label: String,
    pub buffers: Buffers,
    pub calls: Vec<Call>,
}

fn hex(bytes: &[u8]) -> String {
    let digit = |value: u8| char::from_digit(value.into(), 16).expect("four bits");
    let digits = bytes.iter().flat_map(|byte| [byte >> 4, byte & 15]);
    digits.map(digit).collect()
}

fn bytes(hex: &str) -> Option<Vec<u8>> {
    let digits: Option<Vec<u8>> = hex
        .chars()
        .map(|digit| digit.to_digit(16).map(|value| value as u8))
        .collect();
    let digits = digits.filter(|digits| digits.len() % 2 == 0)?;
    Some(
        digits
            .chunks(2)
            .map(|pair| pair[0] << 4 | pair[1])
            .collect(),
    )
}

impl Call {
    fn line(&self) -> String {
        match self {
            Call::Load(text) => format!("load {}", hex(text)),
            Call::Run(records) => format!("run {}", hex(records)),
            Call::Show(clause) => format!("show {clause}"),
            Call::Clause(clause) => format!("clause {clause}"),
            Call::Variable(variable) => format!("variable {variable}"),
            Call::Write(length) => format!("write {length}"),
        }
    }

    fn of_line(line: &str) -> Option<Call> {
        let (name, value) = line.split_once(' ')?;
        match name {
            "load" => bytes(value).map(Call::Load),
            "run" => bytes(value).map(Call::Run),
            "show" => value.parse().ok().map(Call::Show),
            "clause" => value.parse().ok().map(Call::Clause),
            "variable" => value.parse().ok().map(Call::Variable),
            "write" => value.parse().ok().map(Call::Write),
            _ => None,
        }
    }

    /// The text or the records; nothing for another call.
    pub fn input(&self) -> &[u8] {
        match self {
            Call::Load(bytes) | Call::Run(bytes) => bytes,
            _ => &[],
        }
    }

    /// The output of a write before the call, every byte marked; nothing for
    /// another call.
    pub fn output(&self) -> Vec<u8> {
        match *self {
            Call::Write(length) => (0..length).map(|place| place as u8 ^ 0xC3).collect(),
            _ => Vec::new(),
        }
    }

    /// The call in short, for people.
    pub fn short(&self) -> String {
        match self {
            Call::Load(text) => format!("load of {} bytes", text.len()),
            Call::Run(records) => format!("run of {} bytes", records.len()),
            question => question.line(),
        }
    }
}

impl Scenario {
    pub fn to_file(&self) -> String {
        let buffers = self.buffers.0.iter().map(|b| format!("buffer {}", hex(b)));
        let lines = std::iter::once(self.label.clone()).chain(buffers);
        let lines = lines.chain(self.calls.iter().map(Call::line));
        lines.map(|line| line + "\n").collect()
    }

    pub fn of_file(file: &str) -> Option<Scenario> {
        let mut lines = file.lines();
        let label = lines.next()?.to_string();
        let mut buffer = || bytes(lines.next()?.strip_prefix("buffer ")?);
        let buffers = [buffer()?, buffer()?, buffer()?, buffer()?, buffer()?];
        let calls: Option<Vec<Call>> = lines.map(Call::of_line).collect();
        Some(Scenario {
            label,
            buffers: Buffers(buffers),
            calls: calls?,
        })
    }
}

#[cfg(test)]
mod tests {
    use super::*;

    #[test]
    fn files_go_back_and_forth() {
        let scenario = Scenario {
            label: "some calls".into(),
            buffers: Buffers([vec![], vec![0, 255], vec![16], vec![1], vec![2]]),
            calls: vec![
                Call::Load(b"p cnf 0 0\n".to_vec()),
                Call::Run(vec![]),
                Call::Show(u32::MAX),
                Call::Clause(0),
                Call::Variable(7),
                Call::Write(70_000),
            ],
        };
        let file = scenario.to_file();
        assert!(file.contains("\nbuffer 00ff\n"), "{file}");
        assert_eq!(Scenario::of_file(&file), Some(scenario));
        assert_eq!(Scenario::of_file("label\nbuffer 0\n"), None);
    }
}
