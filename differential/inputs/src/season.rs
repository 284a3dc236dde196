//! A season in its parts, and its texts.

use std::fmt::Write;

/// Which of its event's clauses a clause belongs to.
#[derive(Clone, Copy, Debug, PartialEq)]
pub enum Kind {
    All,
    Any,
    Not,
}

/// A clause: its kind, and the seven parts of its signal.
#[derive(Clone, Debug, PartialEq)]
pub struct Clause {
    pub kind: Kind,
    pub parts: [String; 7],
}

/// An event: an opening or an exit, its operate in one of the two spellings, its name, an opening's lots if it says them, and its clauses
/// in the order of their lines.
#[derive(Clone, Debug, PartialEq)]
pub struct Event {
    pub exit: bool,
    pub operate: String,
    pub name: String,
    pub lots: Option<i64>,
    pub clauses: Vec<Clause>,
}

/// A position sheet.
#[derive(Clone, Debug, PartialEq)]
pub struct Sheet {
    pub name: String,
    pub symbol: String,
    pub interval: i64,
    pub timeout: i64,
    /// In hundredths of a basis point.
    pub stop: i64,
    pub t0: bool,
    /// The first line's seventh value, if it has one: how many minutes before midnight the trading day opens.
    pub evening: Option<i64>,
    /// Whether the numbers are written with ten digits (before the stop's point).
    pub padded: bool,
    /// How many decimals the stop is written with at least, 0 to 2.
    pub decimals: usize,
    /// Openings before exits.
    pub events: Vec<Event>,
}

/// A bar with its signals as keys and values, the keys distinct.
#[derive(Clone, Debug, PartialEq)]
pub struct Bar {
    pub id: i64,
    pub instant: i64,
    pub offset: i64,
    pub price: f64,
    pub signals: Vec<(String, String)>,
}

/// What is done to the book.
#[derive(Clone, Debug, PartialEq)]
pub enum Step {
    Feed(Bar),
    /// The book is saved; the image replaces the one before.
    Save,
    /// The last image is restored.
    Restore,
}

/// A sheet, and what is done to a book by it.
#[derive(Clone, Debug, PartialEq)]
pub struct Season {
    pub sheet: Sheet,
    pub steps: Vec<Step>,
}

impl Clause {
    /// The text of its signal.
    pub fn signal(&self) -> String {
        self.parts.join("_")
    }

    /// The key without wildcards.
    pub fn key(&self) -> String {
        let parts = self.parts[..3].iter().map(String::as_str);
        parts
            .filter(|part| *part != crate::words::ANY)
            .collect::<Vec<_>>()
            .join("_")
    }

    fn line(&self) -> String {
        let tag = match self.kind {
            Kind::All => 'A',
            Kind::Any => 'Y',
            Kind::Not => 'N',
        };
        format!("{tag}|{}\n", self.signal())
    }
}

impl Event {
    /// Its lines, lots with so many digits at least.
    fn text(&self, width: usize) -> String {
        let tag = if self.exit { 'X' } else { 'O' };
        let lots = self
            .lots
            .map_or(String::new(), |lots| format!("|{lots:0width$}"));
        let clauses: String = self.clauses.iter().map(Clause::line).collect();
        format!("{tag}|{}|{}{lots}\n{clauses}", self.operate, self.name)
    }

    /// What it opens a position with: 1 where its line does not say.
    pub fn opening_lots(&self) -> i64 {
        self.lots.unwrap_or(1)
    }
}

impl Sheet {
    /// The sheet's text, as it is compiled.
    pub fn text(&self) -> String {
        let width = if self.padded { 10 } else { 1 };
        let t0 = i64::from(self.t0);
        let evening = self
            .evening
            .map_or(String::new(), |minutes| format!("|{minutes:0width$}"));
        let events: String = self.events.iter().map(|event| event.text(width)).collect();
        format!(
            "P|{}|{}|{:0width$}|{:0width$}|{}|{t0:0width$}{evening}\n{events}",
            self.name,
            self.symbol,
            self.interval,
            self.timeout,
            self.stop_field(width)
        )
    }

    /// The stop with as many decimals as it needs, or more.
    fn stop_field(&self, width: usize) -> String {
        let (whole, rest) = (self.stop / 100, self.stop % 100);
        let needed = match rest {
            0 => 0,
            _ if rest % 10 == 0 => 1,
            _ => 2,
        };
        match needed.max(self.decimals) {
            0 => format!("{whole:0width$}"),
            1 => format!("{whole:0width$}.{}", rest / 10),
            _ => format!("{whole:0width$}.{rest:02}"),
        }
    }

    /// The stop in basis points: hundredths divided by 100, rounded once.
    pub fn stop_points(&self) -> f64 {
        self.stop as f64 / 100.0
    }

    /// How many minutes before midnight the trading day opens: 0 where the first line does not say.
    pub fn evening_minutes(&self) -> i64 {
        self.evening.unwrap_or(0)
    }

    pub fn clauses(&self) -> impl Iterator<Item = &Clause> {
        self.events.iter().flat_map(|event| &event.clauses)
    }
}

impl Bar {
    /// The text of its signals, as it is fed.
    pub fn signals_text(&self) -> String {
        self.signals
            .iter()
            .map(|(key, value)| format!("{key}|{value}\n"))
            .collect()
    }

    /// Its lines in the run program's input.
    pub fn lines(&self) -> String {
        let bits = self.price.to_bits();
        let mut text = format!(
            "B|{}|{}|{}|{bits:016x}\n",
            self.id, self.instant, self.offset
        );
        for (key, value) in &self.signals {
            writeln!(text, "S|{key}|{value}").expect("a text grows");
        }
        text
    }
}

impl Season {
    pub fn bars(&self) -> impl Iterator<Item = &Bar> {
        self.steps.iter().filter_map(|step| match step {
            Step::Feed(bar) => Some(bar),
            _ => None,
        })
    }

    /// The run program's input: the sheet, a line `-`, the bars. Saves and restores have no line there.
    pub fn text(&self) -> String {
        let bars: String = self.bars().map(Bar::lines).collect();
        format!("{}-\n{bars}", self.sheet.text())
    }
}
