//! A plan as document 01, section 1, describes it, and its text. A `Plan` may break the rules: the reader decides.

pub const MOST_EVENTS: i64 = 128;
pub const MOST_HORIZON: i64 = 100_000;
pub const MOST_END: i64 = 100_000;
pub const MOST_RECORDS: usize = 256;
pub const MOST_LEVELS: usize = 256;
pub const MOST_LEVELS_TOGETHER: usize = 8_192;
pub const MOST_BYTES: usize = 60_000;
pub const TOP_LEVEL: i64 = 15;

#[derive(Clone, Debug, PartialEq, Eq)]
pub struct Plan {
    pub events: usize,
    pub horizon: i64,
    pub records: Vec<Record>,
}

#[derive(Clone, Debug, PartialEq, Eq)]
pub struct Record {
    pub start: usize,
    pub end: usize,
    pub low: i64,
    pub kind: Kind,
}

#[derive(Clone, Debug, PartialEq, Eq)]
pub enum Kind {
    Rule { high: i64 },
    Wish { levels: Vec<u8> },
}

impl Record {
    pub fn rule(start: usize, end: usize, low: i64, high: i64) -> Record {
        Record { start, end, low, kind: Kind::Rule { high } }
    }

    pub fn wish(start: usize, end: usize, low: i64, levels: Vec<u8>) -> Record {
        Record { start, end, low, kind: Kind::Wish { levels } }
    }

    /// A wish's hi is lo + count − 1.
    pub fn high(&self) -> i64 {
        match &self.kind {
            Kind::Rule { high } => *high,
            Kind::Wish { levels } => self.low + levels.len() as i64 - 1,
        }
    }

    /// The levels of a wish; a rule has none.
    pub fn levels(&self) -> &[u8] {
        match &self.kind {
            Kind::Rule { .. } => &[],
            Kind::Wish { levels } => levels,
        }
    }

    pub fn is_wish(&self) -> bool {
        matches!(self.kind, Kind::Wish { .. })
    }

    fn line(&self) -> String {
        let Record { start, end, low, kind } = self;
        match kind {
            Kind::Rule { high } => format!("rule\t{start}\t{end}\t{low}\t{high}\n"),
            Kind::Wish { levels } => {
                let levels: String = levels.iter().map(|level| format!("\t{level}")).collect();
                format!("wish\t{start}\t{end}\t{low}{levels}\n")
            }
        }
    }
}

impl Plan {
    pub fn new(events: usize, horizon: i64) -> Plan {
        Plan { events, horizon, records: Vec::new() }
    }

    /// The same plan with further records.
    pub fn with(mut self, records: impl IntoIterator<Item = Record>) -> Plan {
        self.records.extend(records);
        self
    }

    /// The wishes with their record numbers, in record order.
    pub fn wishes(&self) -> impl Iterator<Item = (usize, &Record)> {
        self.records.iter().enumerate().filter(|(_, record)| record.is_wish())
    }

    pub fn levels_together(&self) -> usize {
        self.records.iter().map(|record| record.levels().len()).sum()
    }

    /// The plan text of section 2.
    pub fn text(&self) -> Vec<u8> {
        let mut text = format!("events\t{}\t{}\n", self.events, self.horizon);
        for record in &self.records {
            text.push_str(&record.line());
        }
        text.into_bytes()
    }
}
