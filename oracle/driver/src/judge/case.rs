//! A case: a call, the fault in it, and the expected answer.

use crate::call::calls::{Call, File, Fit, Read};
use crate::call::fault::Fault;
use crate::call::wire;
use crate::judge::expect;
use crate::judge::fields;
use crate::judge::library::Library;
use crate::judge::listings::Listings;
use crate::judge::run;

pub struct Case {
    pub call: Call,
    /// None if only a draw is bad, or every mean NaN.
    pub fault: Fault,
}

impl Case {
    pub fn fit(fit: Fit, fault: impl Into<Fault>) -> Self {
        Case {
            call: Call::Fit(fit),
            fault: fault.into(),
        }
    }

    pub fn read(read: Read, fault: impl Into<Fault>) -> Self {
        Case {
            call: Call::Read(read),
            fault: fault.into(),
        }
    }

    /// A file, with the fault that is found in it by definition.
    pub fn file(file: File) -> Self {
        Case {
            fault: fields::fault(&file),
            call: Call::File(file),
        }
    }

    /// The first judge's answer, or the refusal for the fault. The first number is that of the refusal.
    pub fn expected(&self) -> Vec<u64> {
        expect::expect(&self.call, self.fault).encode()
    }

    pub fn answer(&self, library: &dyn Library) -> Vec<u64> {
        run::run(library, &self.call).encode()
    }

    /// The call as numbers, starting with its kind.
    pub fn call_line(&self) -> String {
        format!("{} {:?}", wire::kind(&self.call), wire::down(&self.call))
    }

    /// A line of the list: kind, judge, how many numbers the call has, these, how many the answer has, these.
    pub fn line(&self) -> String {
        let (call, answer) = (wire::down(&self.call), self.expected());
        let head = [
            wire::kind(&self.call),
            expect::judge(&self.call, self.fault, &answer),
            call.len() as u64,
        ];
        let length = [answer.len() as u64];
        let numbers = head.iter().chain(&call).chain(&length).chain(&answer);
        numbers.map(u64::to_string).collect::<Vec<_>>().join(" ")
    }
}

/// A case read from the list.
pub struct Listed {
    pub case: Case,
    /// 1 for smartcore, 2 for the rules.
    pub judge: u64,
    pub answer: Vec<u64>,
}

impl Listed {
    pub fn measures(&self) -> bool {
        expect::measures(&self.case.call, &self.answer)
    }

    /// Whether the answer is found again without the list: by the copy, alone or with thresholds put in the place of its own, or by the
    /// definition of the faults of listings.
    pub fn found_again(&self) -> bool {
        self.judge == 1 || self.measures() || of_listings(&self.answer)
    }
}

fn of_listings(answer: &[u64]) -> bool {
    (11..=13).contains(&answer[0])
}

pub fn parse(line: &str) -> Listed {
    let numbers: Vec<u64> = line
        .split_whitespace()
        .map(|word| word.parse().expect("a number"))
        .collect();
    let call = 3 + numbers[2] as usize;
    let answer = numbers[call + 1..].to_vec();
    assert_eq!(numbers[call] as usize, answer.len(), "an answer cut short");
    let (judge, call) = (numbers[1], wire::up(numbers[0], &numbers[3..call]));
    let fault = match judge {
        1 => Fault::default(),
        _ if of_listings(&answer) => Listings::from(&call).fault(),
        // any other fault is known from the list alone
        _ => Fault::from(answer[0] as u32),
    };
    Listed {
        case: Case { call, fault },
        judge,
        answer,
    }
}

/// All cases of a list; their number must be the one in its first line.
pub fn read_list(file: &str) -> Vec<Listed> {
    let text = std::fs::read_to_string(file).expect("a list to read");
    let mut lines = text.lines();
    let head = lines.next().and_then(|line| line.split_once(' '));
    let (count, longest) = head.expect("how many cases, and how long the longest is");
    let lines: Vec<&str> = lines.collect();
    let numbers = |line: &&str| line.split(' ').count();
    let measured = lines.iter().map(numbers).max().unwrap_or(0);
    assert_eq!(count.parse(), Ok(lines.len()), "cases");
    assert_eq!(longest.parse(), Ok(measured), "numbers in the longest line");
    lines.into_iter().map(parse).collect()
}
