//! How often each rule was named in a run, and which were not.

use std::io::{Result, Write};

use crate::explain::{Rule, RULES};
use crate::verdict::Reason;

/// The wire has no such reason.
const OF_RADIO_ONLY: [Rule; 2] = [
    Rule::Data(Reason::AreaNeverWritable),
    Rule::Data(Reason::ConfigurationLocked),
];

/// A call can bring any other rule about.
pub fn in_calls(rule: Rule) -> bool {
    !OF_RADIO_ONLY.contains(&rule)
}

/// A line of a script too, but for one: the bench puts the right CRC behind each frame.
pub fn in_scripts(rule: Rule) -> bool {
    in_calls(rule) && rule != Rule::BadCrc
}

/// The first rules of the table's lines: data bytes, other bytes, silence, errors.
const LINES: [Rule; 4] = [
    Rule::Data(Reason::LegSpoiled),
    Rule::NoVcc,
    Rule::FieldOff,
    Rule::ShutOut,
];

/// So many lines or calls bring every possible rule about.
pub const ENOUGH: u64 = 200_000;

/// How often each rule was named, in the order of their numbers.
pub struct Names([u64; RULES.len()]);

impl Names {
    pub fn none() -> Names {
        Names([0; RULES.len()])
    }

    /// By its number.
    pub fn add(&mut self, number: u32) {
        self.0[number as usize - 1] += 1;
    }

    /// Each rule that `possible` lets be named, with its number, its name and how often it was.
    pub fn print(&self, out: &mut impl Write, possible: fn(Rule) -> bool) -> Result<()> {
        let named: u64 = self.0.iter().sum();
        write!(out, "  {named} named by a rule")?;
        for (place, &(rule, name)) in RULES.iter().enumerate() {
            if !possible(rule) {
                continue;
            }
            let begins = LINES.contains(&rule);
            write!(out, "{}", if begins { "\n    " } else { "; " })?;
            write!(out, "{} {name}: {}", place + 1, self.0[place])?;
        }
        writeln!(out)
    }

    /// Says which possible ones were never named; true if there is none.
    pub fn complete(&self, out: &mut impl Write, possible: fn(Rule) -> bool) -> Result<bool> {
        let mut complete = true;
        for (place, &(rule, name)) in RULES.iter().enumerate() {
            if possible(rule) && self.0[place] == 0 {
                writeln!(out, "never compared: rule {}, {name}", place + 1)?;
                complete = false;
            }
        }
        Ok(complete)
    }
}
