//! Reads policy and workload files (docs/FILES.md), as far as the benchmarks' and the examples' use their format:
//! tables, whole numbers, texts on one line without escapes, and programs between three quotes. All else is
//! refused with its line.

/// What is wrong with a file, and in which of its lines.
#[derive(Debug)]
pub struct Fault {
    pub line: usize,
    pub why: String,
}

fn fault<T>(line: usize, why: &str) -> Result<T, Fault> {
    Err(Fault { line, why: why.to_string() })
}

#[derive(PartialEq)]
enum Value {
    Number(u64),
    Text(String),
}

struct Entry {
    key: String,
    value: Value,
    line: usize,
}

/// A header, and what stands below it.
struct Table {
    header: String,
    line: usize,
    entries: Vec<Entry>,
}

impl Table {
    fn new(header: &str, line: usize) -> Table {
        Table { header: header.to_string(), line, entries: Vec::new() }
    }

    fn take(&mut self, key: &str) -> Option<Entry> {
        let at = self.entries.iter().position(|entry| entry.key == key)?;
        Some(self.entries.remove(at))
    }

    /// The number of a key, if it is there.
    fn number(&mut self, key: &str, least: u64, most: u64) -> Result<Option<u64>, Fault> {
        match self.take(key) {
            None => Ok(None),
            Some(Entry { value: Value::Number(number), .. }) if (least..=most).contains(&number) => Ok(Some(number)),
            Some(entry) => fault(entry.line, "out of range"),
        }
    }

    fn needed_number(&mut self, key: &str, least: u64, most: u64) -> Result<u64, Fault> {
        match self.number(key, least, most)? {
            Some(number) => Ok(number),
            None => fault(self.line, &format!("{key} is missing")),
        }
    }

    fn text(&mut self, key: &str) -> Result<Option<String>, Fault> {
        match self.take(key) {
            None => Ok(None),
            Some(Entry { value: Value::Text(text), .. }) => Ok(Some(text)),
            Some(entry) => fault(entry.line, "no text"),
        }
    }

    /// A name of 1 to 16 letters, digits and `_`.
    fn name(&mut self) -> Result<String, Fault> {
        match self.text("name")? {
            Some(name) if is_name(&name) => Ok(name),
            _ => fault(self.line, "a name is missing or bad"),
        }
    }

    /// Nothing may be left.
    fn finish(self) -> Result<(), Fault> {
        match self.entries.first() {
            None => Ok(()),
            Some(entry) => fault(entry.line, &format!("{} is unknown", entry.key)),
        }
    }
}

fn is_name(name: &str) -> bool {
    let fits = |byte: u8| byte.is_ascii_lowercase() || byte.is_ascii_digit() || byte == b'_';
    name.bytes().next().is_some_and(|byte| byte.is_ascii_lowercase()) && name.len() <= 16 && name.bytes().all(fits)
}

fn is_blank(rest: &str) -> bool {
    rest.trim().is_empty() || rest.trim().starts_with('#')
}

/// A number or a text, and what stands behind it.
fn value_in(text: &str, line: usize) -> Result<(Value, &str), Fault> {
    for quote in ['"', '\''] {
        if let Some(inner) = text.strip_prefix(quote) {
            return match inner.split_once(quote) {
                Some((text, rest)) if !text.contains('\\') => Ok((Value::Text(text.to_string()), rest)),
                _ => fault(line, "a text that isn't known here"),
            };
        }
    }
    let end = text.find(|letter: char| !letter.is_ascii_digit()).unwrap_or(text.len());
    let (digits, rest) = text.split_at(end);
    match digits.parse() {
        Ok(number) if digits == "0" || !digits.starts_with('0') => Ok((Value::Number(number), rest)),
        _ => fault(line, "a value that isn't known here"),
    }
}

/// The lines up to one that is three quotes alone.
fn block<'a>(lines: &mut impl Iterator<Item = (usize, &'a str)>, quotes: &str, line: usize) -> Result<String, Fault> {
    let mut text = String::new();
    for (at, next) in lines {
        if next.trim_end() == quotes {
            return Ok(text);
        }
        if next.contains(quotes) || next.contains('\\') {
            return fault(at + 1, "a text that isn't known here");
        }
        text.push_str(next);
        text.push('\n');
    }
    fault(line, "a text without an end")
}

/// The tables of a file; what stands above the first header is one, too.
fn tables(text: &str) -> Result<Vec<Table>, Fault> {
    let mut tables = vec![Table::new("", 1)];
    let mut lines = text.lines().enumerate();
    while let Some((at, line)) = lines.next() {
        let number = at + 1;
        if is_blank(line) {
            continue;
        }
        let table = tables.last_mut().expect("a table");
        if let Some((header, rest)) = line.rsplit_once(']').filter(|_| line.starts_with('[')) {
            if !is_blank(rest) {
                return fault(number, "a header that isn't known here");
            }
            tables.push(Table::new(&format!("{header}]"), number));
        } else if let Some((key, rest)) = line.split_once('=') {
            let (key, rest) = (key.trim(), rest.trim_start());
            let quotes = ["\"\"\"", "'''"].into_iter().find(|quotes| rest.trim_end() == *quotes);
            let (value, rest) = match quotes {
                Some(quotes) => (Value::Text(block(&mut lines, quotes, number)?), ""),
                None => value_in(rest, number)?,
            };
            if !is_blank(rest) {
                return fault(number, "a value that isn't known here");
            }
            if table.entries.iter().any(|entry| entry.key == key) {
                return fault(number, &format!("{key} stands there twice"));
            }
            table.entries.push(Entry { key: key.to_string(), value, line: number });
        } else {
            return fault(number, "a line that isn't known here");
        }
    }
    Ok(tables)
}

/// A map of so many elements of so many bytes.
#[derive(Clone, Copy)]
pub struct Shape {
    pub entries: u32,
    pub value_size: u32,
}

/// Programs by the names of their callbacks, as texts.
pub struct Policy {
    pub timeout_ms: u64,
    pub maps: Vec<Shape>,
    pub texts: Vec<(String, String)>,
}

impl Policy {
    pub fn read(text: &str) -> Result<Policy, Fault> {
        let mut policy = Policy { timeout_ms: 30_000, maps: Vec::new(), texts: Vec::new() };
        for table in tables(text)? {
            policy.add(table)?;
        }
        Ok(policy)
    }

    fn add(&mut self, mut table: Table) -> Result<(), Fault> {
        match table.header.as_str() {
            "" => {
                table.text("name")?;
                self.timeout_ms = table.number("timeout_ms", 1, 30_000)?.unwrap_or(self.timeout_ms);
            }
            "[[map]]" if self.maps.len() < 16 => {
                let entries = table.needed_number("entries", 1, 65_536)? as u32;
                self.maps.push(Shape { entries, value_size: table.needed_number("value_size", 1, 4096)? as u32 });
            }
            "[code]" if self.texts.is_empty() => {
                for entry in std::mem::take(&mut table.entries) {
                    match entry.value {
                        Value::Text(text) => self.texts.push((entry.key, text)),
                        Value::Number(_) => return fault(entry.line, "no text"),
                    }
                }
            }
            _ => return fault(table.line, "a table that isn't known here"),
        }
        table.finish()
    }
}

/// A group, its parent, and its quota and period in milliseconds.
pub struct Group {
    pub name: String,
    pub weight: u32,
    pub parent: Option<usize>,
    pub quota: Option<u64>,
    pub period: u64,
}

/// A task: its group, when it wakes first, for how long it runs at once, if it ever sleeps, and for how long.
pub struct Task {
    pub name: String,
    pub group: usize,
    pub start: u64,
    pub run: u64,
    pub sleep: u64,
}

#[derive(Clone, Copy)]
pub struct Change {
    pub at: u64,
    pub group: usize,
    pub weight: u32,
}

#[derive(Default)]
pub struct Workload {
    pub cpus: u32,
    pub ms: u64,
    pub groups: Vec<Group>,
    pub tasks: Vec<Task>,
    pub changes: Vec<Change>,
}

const LONGEST: u64 = 1_000_000;

impl Workload {
    pub fn read(text: &str) -> Result<Workload, Fault> {
        let mut workload = Workload::default();
        for mut table in tables(text)? {
            let line = table.line;
            match table.header.as_str() {
                "" => {
                    workload.cpus = table.needed_number("cpus", 1, 64)? as u32;
                    workload.ms = table.needed_number("ms", 1, LONGEST)?;
                }
                "[[group]]" => workload.add_group(&mut table)?,
                "[[task]]" => workload.add_task(&mut table)?,
                "[[change]]" => workload.add_change(&mut table)?,
                _ => return fault(line, "a table that isn't known here"),
            }
            table.finish()?;
        }
        workload.check()
    }

    /// The group that a key names.
    fn group(&self, table: &mut Table, key: &str) -> Result<Option<usize>, Fault> {
        let Some(name) = table.text(key)? else { return Ok(None) };
        match self.groups.iter().position(|group| group.name == name) {
            Some(at) => Ok(Some(at)),
            None => fault(table.line, "no such group"),
        }
    }

    fn needed_group(&self, table: &mut Table) -> Result<usize, Fault> {
        match self.group(table, "group")? {
            Some(group) => Ok(group),
            None => fault(table.line, "group is missing"),
        }
    }

    fn add_group(&mut self, table: &mut Table) -> Result<(), Fault> {
        let name = table.name()?;
        let weight = table.number("weight", 1, 10_000)?.unwrap_or(100) as u32;
        let parent = self.group(table, "parent")?;
        let (quota, period) = match table.text("cpu_max")? {
            Some(text) => match limit(&text) {
                Some(limit) => limit,
                None => return fault(table.line, "cpu_max is out of range"),
            },
            None => (None, 100),
        };
        if self.groups.iter().any(|group| group.name == name) {
            return fault(table.line, "an earlier group has that name");
        }
        if parent.is_some_and(|parent| self.depth(parent) == 3) {
            return fault(table.line, "a parent that is too deep");
        }
        self.groups.push(Group { name, weight, parent, quota, period });
        if self.groups.len() > 256 { fault(table.line, "too many groups") } else { Ok(()) }
    }

    fn add_task(&mut self, table: &mut Table) -> Result<(), Fault> {
        let task = Task {
            name: table.name()?,
            group: self.needed_group(table)?,
            start: table.number("start", 0, LONGEST)?.unwrap_or(0),
            run: table.number("run", 0, LONGEST)?.unwrap_or(0),
            sleep: table.number("sleep", 0, LONGEST)?.unwrap_or(0),
        };
        if self.tasks.iter().any(|other| other.name == task.name) {
            return fault(table.line, "an earlier task has that name");
        }
        self.tasks.push(task);
        if self.tasks.len() > 1024 { fault(table.line, "too many tasks") } else { Ok(()) }
    }

    fn add_change(&mut self, table: &mut Table) -> Result<(), Fault> {
        let at = table.needed_number("at", 0, LONGEST)?;
        let group = self.needed_group(table)?;
        self.changes.push(Change { at, group, weight: table.needed_number("weight", 1, 10_000)? as u32 });
        if self.changes.len() > 1024 { fault(table.line, "too many changes") } else { Ok(()) }
    }

    fn depth(&self, group: usize) -> usize {
        self.groups[group].parent.map_or(1, |parent| 1 + self.depth(parent))
    }

    /// There are tasks, and each is in a group in which no group lies.
    fn check(self) -> Result<Workload, Fault> {
        if self.tasks.is_empty() {
            return fault(1, "no task");
        }
        let is_parent = |at: usize| self.groups.iter().any(|group| group.parent == Some(at));
        match self.tasks.iter().find(|task| is_parent(task.group)) {
            Some(task) => fault(1, &format!("groups lie in that of task {}", task.name)),
            None => Ok(self),
        }
    }
}

/// The quota, if there is one, and the period of a `cpu_max`, in milliseconds.
fn limit(text: &str) -> Option<(Option<u64>, u64)> {
    let (quota, period) = text.split_once(' ').unwrap_or((text, "100000"));
    let quota = if quota == "max" { None } else { Some(whole_ms(quota, LONGEST)?) };
    Some((quota, whole_ms(period, 1000)?))
}

fn whole_ms(text: &str, most: u64) -> Option<u64> {
    let digits = !text.is_empty() && text.bytes().all(|byte| byte.is_ascii_digit());
    let us: u64 = text.parse().ok().filter(|_| digits)?;
    (us % 1000 == 0 && (1..=most).contains(&(us / 1000))).then_some(us / 1000)
}
