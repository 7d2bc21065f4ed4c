//! What the replies were, by kind of record and by rule, so that it shows what a run has reached.

use independent::reader::{Reader, field};
use std::collections::BTreeMap;

#[derive(Default)]
pub struct Counts {
    pub differences: u64,
    dossiers: u64,
    records: u64,
    ways: BTreeMap<usize, u64>,
    /// Kind (11 for those that there aren't) and refusal, 0 for ok.
    kinds: BTreeMap<(u16, u16), u64>,
    /// Rule (11 for those that there aren't) and refusal, 0 for ok, of the lines.
    rules: BTreeMap<(u16, u16), u64>,
}

impl Counts {
    pub fn add(&mut self, way: usize, dossier: &[u8], printed: &[u8]) {
        self.dossiers += 1;
        *self.ways.entry(way).or_default() += 1;
        let text = String::from_utf8_lossy(printed);
        for (line, record) in text.lines().zip(Reader::new(dossier)) {
            let words: Vec<&str> = line.split(' ').collect();
            if words.len() < 4 || words[0] == "end" {
                continue;
            }
            self.records += 1;
            let reply = if words[2] == "ok" {
                0
            } else {
                words[3].parse().unwrap_or(u16::MAX)
            };
            let kind = words[1].parse().unwrap_or(u16::MAX);
            let kind = if (1..=10).contains(&kind) { kind } else { 11 };
            *self.kinds.entry((kind, reply)).or_default() += 1;
            if let (7, Ok(body)) = (record.kind, record.body) {
                let rule = match field(body, 0) {
                    rule @ 1..=10 => rule,
                    _ => 11,
                };
                *self.rules.entry((rule, reply)).or_default() += 1;
            }
        }
    }

    pub fn join(&mut self, other: &Counts) {
        self.differences += other.differences;
        self.dossiers += other.dossiers;
        self.records += other.records;
        other
            .ways
            .iter()
            .for_each(|(key, count)| *self.ways.entry(*key).or_default() += count);
        other
            .kinds
            .iter()
            .for_each(|(key, count)| *self.kinds.entry(*key).or_default() += count);
        other
            .rules
            .iter()
            .for_each(|(key, count)| *self.rules.entry(*key).or_default() += count);
    }

    pub fn print(&self, ways: &[&str]) {
        for (way, count) in &self.ways {
            println!("{:>8} {}", count, ways[*way]);
        }
        println!();
        table("kind", &self.kinds, |kind| {
            let names = [
                "",
                "inclusion",
                "transitivity",
                "concept",
                "pair",
                "axiom",
                "seal",
                "line",
                "claim",
                "empty",
                "inhabited",
                "other",
            ];
            format!("{kind} {}", names[usize::from(kind)])
        });
        println!();
        table("lines by rule", &self.rules, |rule| match rule {
            11 => "other".into(),
            _ => rule.to_string(),
        });
        println!();
        println!(
            "{} dossiers, {} records, {} differences",
            self.dossiers, self.records, self.differences
        );
    }
}

fn table(title: &str, counts: &BTreeMap<(u16, u16), u64>, name: impl Fn(u16) -> String) {
    print!("{title:<16}{:>9}", "ok");
    (1..=15).for_each(|refusal| print!("{refusal:>8}"));
    println!();
    for row in 1..=11 {
        print!("{:<16}", name(row));
        for refusal in 0..=15 {
            let width = if refusal == 0 { 9 } else { 8 };
            match counts.get(&(row, refusal)) {
                Some(count) => print!("{count:>width$}"),
                None => print!("{:>width$}", "."),
            }
        }
        println!();
    }
}
