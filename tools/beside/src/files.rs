//! The sheet and panel files as plain records, and their bytes.
//!
//! Nothing here judges a file: `Sheet` and `Panel` may hold any records, so that broken files can
//! be written too. `SheetWriter` and `PanelWriter` lay out patterns and values in pre-order.

/// A record of the type section.
#[derive(Clone, Copy, Debug, PartialEq, Eq)]
pub struct TypeRecord {
    pub kind: u8,
    pub flag: u8,
    pub first: u16,
    pub count: u16,
}

/// A run of a section: a constructor's fields in the type list.
#[derive(Clone, Copy, Debug, PartialEq, Eq)]
pub struct Run {
    pub first: u16,
    pub count: u16,
}

/// A record of the pattern section, and of a panel's records.
#[derive(Clone, Copy, Debug, PartialEq, Eq)]
pub struct Record {
    pub kind: u8,
    pub zero: u8,
    pub a: u16,
    pub first: u16,
    pub count: u16,
}

/// The sections of a sheet file.
#[derive(Clone, Debug, Default, PartialEq, Eq)]
pub struct Sheet {
    pub types: Vec<TypeRecord>,
    pub constructors: Vec<Run>,
    pub type_list: Vec<u16>,
    pub patterns: Vec<Record>,
    pub children: Vec<u16>,
    pub clauses: Vec<u16>,
    pub pool: Vec<u8>,
    pub subject: u16,
}

/// The sections of a panel file.
#[derive(Clone, Debug, Default, PartialEq, Eq)]
pub struct Panel {
    pub records: Vec<Record>,
    pub children: Vec<u16>,
    pub pool: Vec<u8>,
}

// Kinds of types.
pub const INT: u8 = 0;
pub const BYTES: u8 = 1;
pub const LIST: u8 = 2;
pub const PAIR: u8 = 3;
pub const TUPLE: u8 = 4;
pub const DATA: u8 = 5;

// Kinds of patterns.
pub const P_DISCARD: u8 = 0;
pub const P_VARIABLE: u8 = 1;
pub const P_ASSIGN: u8 = 2;
pub const P_INT: u8 = 3;
pub const P_BYTES: u8 = 4;
pub const P_LIST: u8 = 5;
pub const P_TAILED: u8 = 6;
pub const P_CONSTR: u8 = 7;
pub const P_PAIR: u8 = 8;
pub const P_TUPLE: u8 = 9;

// Kinds of panel records.
pub const V_INT: u8 = 0;
pub const V_BYTES: u8 = 1;
pub const V_LIST: u8 = 2;
pub const V_PAIR: u8 = 3;
pub const V_TUPLE: u8 = 4;
pub const V_CONSTR: u8 = 5;

/// The number at byte `at`, low byte first.
pub fn u16_at(bytes: &[u8], at: usize) -> u16 {
    u16::from_le_bytes([bytes[at], bytes[at + 1]])
}

/// Appends a number, low byte first. What is over 16 bits is cut off.
pub fn put(out: &mut Vec<u8>, number: usize) {
    out.extend_from_slice(&(number as u16).to_le_bytes());
}

fn put_record(out: &mut Vec<u8>, record: &Record) {
    out.push(record.kind);
    out.push(record.zero);
    for field in [record.a, record.first, record.count] {
        put(out, field as usize);
    }
}

impl Sheet {
    pub fn to_bytes(&self) -> Vec<u8> {
        let mut out = Vec::new();
        let mut starts = vec![0];
        for t in &self.types {
            out.push(t.kind);
            out.push(t.flag);
            put(&mut out, t.first as usize);
            put(&mut out, t.count as usize);
        }
        starts.push(out.len());
        for c in &self.constructors {
            put(&mut out, c.first as usize);
            put(&mut out, c.count as usize);
        }
        starts.push(out.len());
        for t in &self.type_list {
            put(&mut out, *t as usize);
        }
        starts.push(out.len());
        for p in &self.patterns {
            put_record(&mut out, p);
        }
        starts.push(out.len());
        for c in &self.children {
            put(&mut out, *c as usize);
        }
        starts.push(out.len());
        for c in &self.clauses {
            put(&mut out, *c as usize);
        }
        starts.push(out.len());
        out.extend_from_slice(&self.pool);
        for start in starts {
            put(&mut out, start);
        }
        put(&mut out, self.subject as usize);
        let length = out.len() + 2;
        put(&mut out, length);
        out
    }
}

impl Panel {
    pub fn to_bytes(&self) -> Vec<u8> {
        let mut out = Vec::new();
        for r in &self.records {
            put_record(&mut out, r);
        }
        let children = out.len();
        for c in &self.children {
            put(&mut out, *c as usize);
        }
        let pool = out.len();
        out.extend_from_slice(&self.pool);
        for start in [0, children, pool] {
            put(&mut out, start);
        }
        let length = out.len() + 2;
        put(&mut out, length);
        out
    }
}

/// A pattern as one writes it.
#[derive(Clone, Debug, PartialEq, Eq)]
pub enum Pattern {
    Discard,
    Variable(u16),
    Assign(u16, Box<Pattern>),
    Int(String),
    Bytes(Vec<u8>),
    List(Vec<Pattern>),
    /// The last of these is the tail.
    Tailed(Vec<Pattern>),
    Constr(u16, Vec<Pattern>),
    Pair(Box<Pattern>, Box<Pattern>),
    Tuple(Vec<Pattern>),
}

/// A value as one writes it.
#[derive(Clone, Debug, PartialEq, Eq)]
pub enum Value {
    Int(String),
    Bytes(Vec<u8>),
    List(Vec<Value>),
    Pair(Box<Value>, Box<Value>),
    Tuple(Vec<Value>),
    Constr(u16, Vec<Value>),
}

/// Where `text` is put in the pool: each different text once, in order of first use.
fn pooled(pool: &mut Vec<u8>, known: &mut Vec<(Vec<u8>, u16)>, text: &[u8]) -> (u16, u16) {
    if text.is_empty() {
        return (0, 0);
    }
    let start = match known.iter().find(|(t, _)| t == text) {
        Some((_, start)) => *start,
        None => {
            let start = pool.len() as u16;
            pool.extend_from_slice(text);
            known.push((text.to_vec(), start));
            start
        }
    };
    (start, text.len() as u16)
}

/// Writes clauses into a sheet: patterns in pre-order, child lists in the order of their owners.
#[derive(Default)]
pub struct SheetWriter {
    pub sheet: Sheet,
    texts: Vec<(Vec<u8>, u16)>,
}

impl SheetWriter {
    pub fn new(sheet: Sheet) -> Self {
        Self { sheet, texts: vec![] }
    }

    pub fn clause(&mut self, pattern: &Pattern) {
        let root = self.pattern(pattern);
        self.sheet.clauses.push(root);
    }

    fn pattern(&mut self, pattern: &Pattern) -> u16 {
        let number = self.sheet.patterns.len();
        let (kind, a) = match pattern {
            Pattern::Discard => (P_DISCARD, 0),
            Pattern::Variable(name) => (P_VARIABLE, *name),
            Pattern::Assign(name, _) => (P_ASSIGN, *name),
            Pattern::Int(_) => (P_INT, 0),
            Pattern::Bytes(_) => (P_BYTES, 0),
            Pattern::List(_) => (P_LIST, 0),
            Pattern::Tailed(_) => (P_TAILED, 0),
            Pattern::Constr(which, _) => (P_CONSTR, *which),
            Pattern::Pair(..) => (P_PAIR, 0),
            Pattern::Tuple(_) => (P_TUPLE, 0),
        };
        self.sheet.patterns.push(Record { kind, zero: 0, a, first: 0, count: 0 });
        let (first, count) = match pattern {
            Pattern::Discard | Pattern::Variable(_) => (0, 0),
            Pattern::Int(text) => pooled(&mut self.sheet.pool, &mut self.texts, text.as_bytes()),
            Pattern::Bytes(text) => pooled(&mut self.sheet.pool, &mut self.texts, text),
            Pattern::Assign(_, inside) => self.run(&[inside]),
            Pattern::Pair(fst, snd) => self.run(&[fst, snd]),
            Pattern::List(parts)
            | Pattern::Tailed(parts)
            | Pattern::Constr(_, parts)
            | Pattern::Tuple(parts) => self.run(&parts.iter().collect::<Vec<_>>()),
        };
        self.sheet.patterns[number].first = first;
        self.sheet.patterns[number].count = count;
        number as u16
    }

    fn run(&mut self, parts: &[&Pattern]) -> (u16, u16) {
        if parts.is_empty() {
            return (0, 0);
        }
        let first = self.sheet.children.len();
        self.sheet.children.resize(first + parts.len(), 0);
        for (i, part) in parts.iter().enumerate() {
            self.sheet.children[first + i] = self.pattern(part);
        }
        (first as u16, parts.len() as u16)
    }
}

/// Writes a value as a panel: records in pre-order, child lists in the order of their owners.
#[derive(Default)]
pub struct PanelWriter {
    pub panel: Panel,
    texts: Vec<(Vec<u8>, u16)>,
}

impl PanelWriter {
    pub fn written(value: &Value) -> Panel {
        let mut writer = Self::default();
        writer.value(value);
        writer.panel
    }

    fn value(&mut self, value: &Value) -> u16 {
        let number = self.panel.records.len();
        let (kind, a) = match value {
            Value::Int(_) => (V_INT, 0),
            Value::Bytes(_) => (V_BYTES, 0),
            Value::List(_) => (V_LIST, 0),
            Value::Pair(..) => (V_PAIR, 0),
            Value::Tuple(_) => (V_TUPLE, 0),
            Value::Constr(which, _) => (V_CONSTR, *which),
        };
        self.panel.records.push(Record { kind, zero: 0, a, first: 0, count: 0 });
        let (first, count) = match value {
            Value::Int(text) => pooled(&mut self.panel.pool, &mut self.texts, text.as_bytes()),
            Value::Bytes(text) => pooled(&mut self.panel.pool, &mut self.texts, text),
            Value::Pair(fst, snd) => self.run(&[fst, snd]),
            Value::List(parts) | Value::Tuple(parts) | Value::Constr(_, parts) => {
                self.run(&parts.iter().collect::<Vec<_>>())
            }
        };
        self.panel.records[number].first = first;
        self.panel.records[number].count = count;
        number as u16
    }

    fn run(&mut self, parts: &[&Value]) -> (u16, u16) {
        if parts.is_empty() {
            return (0, 0);
        }
        let first = self.panel.children.len();
        self.panel.children.resize(first + parts.len(), 0);
        for (i, part) in parts.iter().enumerate() {
            self.panel.children[first + i] = self.value(part);
        }
        (first as u16, parts.len() as u16)
    }
}
