//! The page that `rule_page` must print: rows and words are the Rust module's; the rules' names and sentences, which it
//! does not have, are read from the definition of the rules.
use crate::class_word;
use std::fmt::Write as _;

// The class words of a row, by the low six bits.
type Words = [u16; 64];

const WIDTH: usize = 100;

// What a line speaks of: the first and the last of the low six bits, mode and reg.
const MODES: [(&str, usize, usize); 13] = [
    ("Dn", 0o00, 0o07),
    ("An", 0o10, 0o17),
    ("(An)", 0o20, 0o27),
    ("(An)+", 0o30, 0o37),
    ("-(An)", 0o40, 0o47),
    ("(d16,An)", 0o50, 0o57),
    ("(d8,An,Xn)", 0o60, 0o67),
    ("(xxx).W", 0o70, 0o70),
    ("(xxx).L", 0o71, 0o71),
    ("(d16,PC)", 0o72, 0o72),
    ("(d8,PC,Xn)", 0o73, 0o73),
    ("#immediate", 0o74, 0o74),
    ("mode7/5-7", 0o75, 0o77),
];

// From bit 7 on.
const FLAGS: [&str; 9] = [
    "BRANCH",
    "DBCC",
    "VARIABLE",
    "DEFINES_CCR",
    "USES_CCR_LATE",
    "EA_INDEXED",
    "UNCLASSIFIED",
    "READS_MEM",
    "WRITES_MEM",
];

// The names and sentences, as the definition writes them: rule "NAME" "SENTENCE", in the order of the rules' numbers.
fn names(definition: &str) -> Result<Vec<(&str, &str)>, String> {
    let mut all = Vec::new();
    for text in definition.split("rule \"").skip(1) {
        match text.splitn(4, '"').collect::<Vec<_>>()[..] {
            [name, between, sentence, _] if between.trim().is_empty() => all.push((name, sentence)),
            _ => return Err(format!("rule {} of the definition has no name and sentence in quotes", all.len())),
        }
    }
    Ok(all)
}

fn described(word: u16) -> String {
    let set: Vec<&str> = (0..FLAGS.len()).filter(|i| word >> (7 + i) & 1 != 0).map(|i| FLAGS[i]).collect();
    let flags = if set.is_empty() { "none".into() } else { set.join(" ") };
    format!("{word:04X} class {} clocks {} {flags}", word & 3, word >> 2 & 31)
}

// A line for each mode, which speaks for all its registers: they must have the same word.
fn modes(rule: usize, words: &Words, text: &mut String) -> Result<(), String> {
    for (name, first, last) in MODES {
        let word = words[first];
        if let Some(other) = words[first..=last].iter().find(|other| **other != word) {
            return Err(format!("rule {rule} has no one word at {name}: {word:04X} and {other:04X}"));
        }
        writeln!(text, "  {name:<12}{}", described(word)).unwrap();
    }
    Ok(())
}

pub fn rule_page(definition: &str) -> Result<String, String> {
    let rows: Vec<Words> = (0..1024).map(|row| std::array::from_fn(|six| class_word(64 * row + six as u16))).collect();
    let mut rules: Vec<Words> = Vec::new();
    let mut runs: Vec<(usize, usize, usize)> = Vec::new(); // first row, last row, rule
    for (row, words) in rows.iter().enumerate() {
        let rule = rules.iter().position(|known| known == words).unwrap_or_else(|| {
            rules.push(*words);
            rules.len() - 1
        });
        match runs.last_mut() {
            Some((_, last, same)) if *same == rule => *last = row,
            _ => runs.push((row, row, rule)),
        }
    }
    let names = names(definition)?;
    if names.len() != rules.len() {
        return Err(format!("the definition names {} rules, and the Rust has {}", names.len(), rules.len()));
    }

    let mut text = String::new();
    for (first, last, rule) in runs {
        writeln!(text, "{:04X}-{:04X} {rule} {}", 64 * first, 64 * last + 63, names[rule].0).unwrap();
    }
    for (rule, (words, (name, sentence))) in rules.iter().zip(names).enumerate() {
        writeln!(text, "\n{rule} {name}: {sentence}").unwrap();
        modes(rule, words, &mut text)?;
    }
    writeln!(text, "\n{} rows, {} rules", rows.len(), rules.len()).unwrap();
    match text.lines().find(|line| line.len() > WIDTH || !line.bytes().all(|b| (b' '..=b'~').contains(&b))) {
        Some(line) => Err(format!("a line is over {WIDTH} columns, or not ASCII: {line}")),
        None => Ok(text),
    }
}
