// An unverified peer of the operations on texts, with Rust's std alone: `texts keeps|shares NAME FILE [OPERAND]` reads
// the file once, applies the operation of this name eight times, and prints the microseconds of one and how many bytes
// it gives. `keeps` copies the text for each application, as a program does that gives each task values of its own, and
// keeps the values and a journal of starts and ends; `shares` hands the text on, cuts it without a copy and frees what
// it made. It is built by `rustc -O`.
use std::borrow::Cow;
use std::collections::HashMap;
use std::time::Instant;

const TIMES: u32 = 8;

type Made<'t> = Cow<'t, [u8]>;

// An entry of the journal: which application started or ended, and how long its value is.
#[allow(dead_code)]
enum Entry {
    Start(u32),
    End(u32, usize),
}

// The lines of a normal text, without their ends.
fn lines(text: &[u8]) -> impl Iterator<Item = &[u8]> {
    text.split_inclusive(|byte| *byte == b'\n').map(|line| &line[..line.len() - 1])
}

fn add_line(made: &mut Vec<u8>, line: &[u8]) {
    made.extend_from_slice(line);
    made.push(b'\n');
}

// Where the first lines end.
fn end_of(text: &[u8], count: usize) -> usize {
    lines(text).take(count).map(|line| line.len() + 1).sum()
}

fn head(text: &[u8], count: usize) -> Made<'_> {
    text[..end_of(text, count)].into()
}

fn skip(text: &[u8], count: usize) -> Made<'_> {
    text[end_of(text, count)..].into()
}

fn tail(text: &[u8], count: usize) -> Made<'_> {
    skip(text, lines(text).count().saturating_sub(count))
}

// The lines in which the word occurs, or the others.
fn keep<'t>(text: &'t [u8], word: &[u8], wanted: bool) -> Made<'t> {
    let mut made = Vec::new();
    for line in lines(text) {
        if (word.is_empty() || line.windows(word.len()).any(|piece| piece == word)) == wanted {
            add_line(&mut made, line);
        }
    }
    made.into()
}

fn uniq(text: &[u8]) -> Made<'_> {
    let mut made = Vec::new();
    let mut before = None;
    for line in lines(text) {
        if before != Some(line) {
            add_line(&mut made, line);
        }
        before = Some(line);
    }
    made.into()
}

fn count(text: &[u8]) -> Made<'_> {
    format!("{}\n", lines(text).count()).into_bytes().into()
}

fn sort(text: &[u8]) -> Made<'_> {
    let mut rows: Vec<&[u8]> = lines(text).collect();
    rows.sort_unstable();
    let mut made = Vec::with_capacity(text.len());
    for line in rows {
        add_line(&mut made, line);
    }
    made.into()
}

fn tally(text: &[u8]) -> Made<'_> {
    let mut counts: HashMap<&[u8], u64> = HashMap::new();
    for line in lines(text) {
        *counts.entry(line).or_insert(0) += 1;
    }
    let mut rows: Vec<(&[u8], u64)> = counts.into_iter().collect();
    rows.sort_unstable();
    let mut made = Vec::new();
    for (line, count) in rows {
        made.extend_from_slice(count.to_string().as_bytes());
        made.push(b' ');
        add_line(&mut made, line);
    }
    made.into()
}

// What precedes the first space of a line.
fn key_of(line: &[u8]) -> &[u8] {
    let end = line.iter().position(|byte| *byte == b' ').unwrap_or(line.len());
    &line[..end]
}

fn match_lines<'t>(left: &'t [u8], right: &[u8]) -> Made<'t> {
    let mut first: HashMap<&[u8], &[u8]> = HashMap::new();
    for line in lines(right) {
        let key = key_of(line);
        first.entry(key).or_insert(&line[key.len()..]);
    }
    let mut made = Vec::new();
    for line in lines(left) {
        if let Some(rest) = first.get(key_of(line)) {
            made.extend_from_slice(line);
            add_line(&mut made, rest);
        }
    }
    made.into()
}

fn apply<'t>(name: &str, text: &'t [u8], operand: &str) -> Made<'t> {
    let number = operand.parse().unwrap_or(0);
    match name {
        "head" => head(text, number),
        "tail" => tail(text, number),
        "skip" => skip(text, number),
        "keep" => keep(text, operand.as_bytes(), true),
        "without" => keep(text, operand.as_bytes(), false),
        "uniq" => uniq(text),
        "count" => count(text),
        "sort" => sort(text),
        "tally" => tally(text),
        "match" => match_lines(text, text),
        _ => text.into(),
    }
}

// Keeps each value, a copy of the text for each, and the journal.
fn keeps(name: &str, text: &[u8], operand: &str) -> usize {
    let (mut values, mut journal) = (Vec::new(), Vec::new());
    for application in 0..TIMES {
        journal.push(Entry::Start(application));
        let own = text.to_vec();
        let made = apply(name, &own, operand).into_owned();
        journal.push(Entry::End(application, made.len()));
        values.push((own, made));
    }
    values.last().map_or(0, |(_, made)| made.len())
}

// Hands the text on, and frees what it made.
fn shares(name: &str, text: &[u8], operand: &str) -> usize {
    (0..TIMES).map(|_| apply(name, text, operand).len()).last().unwrap_or(0)
}

fn main() {
    let words: Vec<String> = std::env::args().collect();
    let mut text = std::fs::read(&words[3]).expect("a text");
    if text.last().is_some_and(|byte| *byte != b'\n') {
        text.push(b'\n');
    }
    let operand = words.get(4).map_or("", |word| word.as_str());
    let start = Instant::now();
    let bytes = if words[1] == "keeps" { keeps(&words[2], &text, operand) } else { shares(&words[2], &text, operand) };
    println!("{} {bytes}", start.elapsed().as_micros() / u128::from(TIMES));
}
