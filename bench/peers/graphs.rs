// An unverified peer of `flow run`, with Rust's std alone: `graphs keeps|shares FILE` reads a graph file, runs it by
// one thread, and prints the report. `keeps` keeps all values and a journal of starts and ends to the end, as `flow`
// does; `shares` frees each value with the last task that needs it. Both hand texts on without a copy. It knows the
// operations `read`, `keep`, `count` and `pass`, and tasks with at most one predecessor. It takes a file as it should
// be, and doesn't look for what `flow` refuses. It is built by `rustc -O`.
use std::borrow::Cow;
use std::collections::{HashMap, VecDeque};
use std::io::Write;
use std::rc::Rc;

// ---- JSON

enum Value<'t> {
    Text(Cow<'t, str>),
    List(Vec<Value<'t>>),
    Object(Vec<(Cow<'t, str>, Value<'t>)>),
    Other,
}

type Members<'t> = Vec<(Cow<'t, str>, Value<'t>)>;

struct Reader<'t> {
    text: &'t str,
    at: usize,
}

impl<'t> Reader<'t> {
    fn next(&self) -> u8 {
        self.text.as_bytes().get(self.at).copied().unwrap_or(0)
    }

    fn skip_spaces(&mut self) {
        while self.next().is_ascii_whitespace() {
            self.at += 1;
        }
    }

    // Whether this byte comes next; then it is passed.
    fn passes(&mut self, byte: u8) -> bool {
        self.skip_spaces();
        let is_next = self.next() == byte;
        self.at += usize::from(is_next);
        is_next
    }

    fn expect(&mut self, byte: u8) {
        assert!(self.passes(byte), "{:?} at byte {}", byte as char, self.at);
    }

    fn value(&mut self) -> Value<'t> {
        self.skip_spaces();
        match self.next() {
            b'{' => self.object(),
            b'[' => self.list(),
            b'"' => Value::Text(self.string()),
            byte if byte == b'-' || byte.is_ascii_digit() => self.number(),
            _ => self.word(),
        }
    }

    fn object(&mut self) -> Value<'t> {
        self.expect(b'{');
        let mut members = Vec::new();
        if self.passes(b'}') {
            return Value::Object(members);
        }
        loop {
            self.skip_spaces();
            let name = self.string();
            self.expect(b':');
            members.push((name, self.value()));
            if !self.passes(b',') {
                break;
            }
        }
        self.expect(b'}');
        Value::Object(members)
    }

    fn list(&mut self) -> Value<'t> {
        self.expect(b'[');
        let mut items = Vec::new();
        if self.passes(b']') {
            return Value::List(items);
        }
        loop {
            items.push(self.value());
            if !self.passes(b',') {
                break;
            }
        }
        self.expect(b']');
        Value::List(items)
    }

    // A string lies in the text, unless it has an escape.
    fn string(&mut self) -> Cow<'t, str> {
        self.expect(b'"');
        let rest = &self.text[self.at..];
        let end = rest.bytes().position(|byte| matches!(byte, b'"' | b'\\')).expect("an end");
        if rest.as_bytes()[end] == b'\\' {
            return self.escaped().into();
        }
        self.at += end + 1;
        rest[..end].into()
    }

    fn escaped(&mut self) -> String {
        let mut made = Vec::new();
        while self.next() != b'"' {
            let is_escape = self.next() == b'\\';
            self.at += usize::from(is_escape);
            made.push(match (is_escape, self.next()) {
                (true, b'n') => b'\n',
                (true, b't') => b'\t',
                (_, byte) => byte,
            });
            self.at += 1;
        }
        self.at += 1;
        String::from_utf8(made).expect("UTF-8")
    }

    fn number(&mut self) -> Value<'t> {
        let first = self.at;
        while b"+-.eE0123456789".contains(&self.next()) {
            self.at += 1;
        }
        let _: f64 = self.text[first..self.at].parse().expect("a number");
        Value::Other
    }

    fn word(&mut self) -> Value<'t> {
        while self.next().is_ascii_alphabetic() {
            self.at += 1;
        }
        Value::Other
    }
}

// ---- graphs

enum Operation<'v> {
    Read(&'v str),
    Keep(&'v str),
    Count,
    Pass,
}

struct Task<'v> {
    name: &'v str,
    operation: Operation<'v>,
    to: Vec<usize>,
    inputs: usize,
}

fn member<'v>(members: &'v Members<'_>, name: &str) -> Option<&'v Value<'v>> {
    members.iter().rev().find(|(it, _)| it == name).map(|(_, value)| value)
}

fn text_of<'v>(members: &'v Members<'_>, name: &str) -> &'v str {
    match member(members, name) {
        Some(Value::Text(text)) => text,
        _ => panic!("no {name}"),
    }
}

fn operation_of<'v>(members: &'v Members<'_>) -> Operation<'v> {
    match text_of(members, "op") {
        "read" => Operation::Read(text_of(members, "text")),
        "keep" => Operation::Keep(text_of(members, "word")),
        "count" => Operation::Count,
        "pass" => Operation::Pass,
        other => panic!("no operation {other}"),
    }
}

fn heads_of(members: &Members<'_>, numbers: &HashMap<&str, usize>) -> Vec<usize> {
    let Some(Value::List(names)) = member(members, "to") else {
        return Vec::new();
    };
    let number = |name: &Value| match name {
        Value::Text(name) => numbers[&**name],
        _ => panic!("a name"),
    };
    names.iter().map(number).collect()
}

fn members_of<'v>(value: &'v Value<'_>) -> &'v Members<'v> {
    match value {
        Value::Object(members) => members,
        _ => panic!("no object"),
    }
}

fn tasks_of<'v>(file: &'v Value<'_>) -> Vec<Task<'v>> {
    let Some(Value::List(rows)) = member(members_of(file), "tasks") else { panic!("no tasks") };
    let mut numbers = HashMap::with_capacity(rows.len());
    for (number, row) in rows.iter().enumerate() {
        let before = numbers.insert(text_of(members_of(row), "name"), number);
        assert!(before.is_none(), "a name twice");
    }
    let mut tasks: Vec<Task> = rows
        .iter()
        .map(members_of)
        .map(|members| Task {
            name: text_of(members, "name"),
            operation: operation_of(members),
            to: heads_of(members, &numbers),
            inputs: 0,
        })
        .collect();
    for tail in 0..tasks.len() {
        for place in 0..tasks[tail].to.len() {
            let head = tasks[tail].to[place];
            tasks[head].inputs += 1;
        }
    }
    tasks
}

// ---- runs

type Text = Rc<Vec<u8>>;

#[allow(dead_code)]
enum Entry {
    Start(usize, usize),
    End(usize, usize, Text),
}

fn lines(text: &[u8]) -> impl Iterator<Item = &[u8]> {
    text.split_inclusive(|byte| *byte == b'\n')
}

fn apply(operation: &Operation, texts: &HashMap<&str, Text>, inputs: &[Text]) -> Text {
    match operation {
        Operation::Read(name) => texts[name].clone(),
        Operation::Keep(word) => {
            let mut made = Vec::new();
            for line in inputs.iter().flat_map(|text| lines(text)) {
                if word.is_empty() || line.windows(word.len()).any(|piece| piece == word.as_bytes()) {
                    made.extend_from_slice(line);
                }
            }
            Rc::new(made)
        }
        Operation::Count => {
            let count: usize = inputs.iter().map(|text| lines(text).count()).sum();
            Rc::new(format!("{count}\n").into_bytes())
        }
        Operation::Pass => match inputs {
            [only] => only.clone(),
            _ => Rc::new(inputs.iter().flat_map(|text| text.iter().copied()).collect()),
        },
    }
}

// The values of tasks without an out-edge. Where all is kept, inputs and the journal live to the end.
fn run(tasks: &[Task], texts: &HashMap<&str, Text>, keeps: bool, journal: &mut Vec<Entry>) -> Vec<Option<Text>> {
    let mut missing: Vec<usize> = tasks.iter().map(|task| task.inputs).collect();
    let mut inputs: Vec<Vec<Text>> = tasks.iter().map(|_| Vec::new()).collect();
    let mut results: Vec<Option<Text>> = tasks.iter().map(|_| None).collect();
    let mut ready: VecDeque<usize> = (0..tasks.len()).filter(|number| missing[*number] == 0).collect();
    let mut starts = 0;
    while let Some(number) = ready.pop_back() {
        let task = &tasks[number];
        if keeps {
            journal.push(Entry::Start(starts, number));
        }
        let found = std::mem::take(&mut inputs[number]);
        let made = apply(&task.operation, texts, &found);
        if keeps {
            journal.push(Entry::End(starts, number, made.clone()));
            inputs[number] = found;
        }
        starts += 1;
        for head in &task.to {
            inputs[*head].push(made.clone());
            missing[*head] -= 1;
            if missing[*head] == 0 {
                ready.push_back(*head);
            }
        }
        if task.to.is_empty() {
            results[number] = Some(made);
        }
    }
    results
}

fn main() -> std::io::Result<()> {
    let words: Vec<String> = std::env::args().collect();
    let text = std::fs::read_to_string(&words[2])?;
    let file = Reader { text: &text, at: 0 }.value();
    let tasks = tasks_of(&file);
    let mut texts: HashMap<&str, Text> = HashMap::new();
    for task in &tasks {
        if let Operation::Read(name) = &task.operation {
            if !texts.contains_key(name) {
                texts.insert(name, Rc::new(std::fs::read(name)?));
            }
        }
    }
    let mut journal = Vec::new();
    let results = run(&tasks, &texts, words[1] == "keeps", &mut journal);
    let mut out = std::io::BufWriter::new(std::io::stdout().lock());
    for (task, result) in tasks.iter().zip(&results).filter(|(task, _)| task.to.is_empty()) {
        writeln!(out, "{} {}", if result.is_some() { "==" } else { "--" }, task.name)?;
        if let Some(value) = result {
            out.write_all(value)?;
        }
    }
    out.flush()
}
