//! Which rules of document 01 the inputs reach, and of document 02, W4, counted bar by bar and row by row.

use crate::counts::Counts;
use crate::shown::{Hold, PairRow, Shown};
use chrono::{DateTime, FixedOffset};
use inputs::{Bar, Event, Sheet};
use position_book::raw::{self, FeedAnswer};
use reference::objects::position::{OperateRecord, Pos, PositionRuntimeState};

/// An accepted bar, the Rust's state before and after it, and the lots that were open before it on our side.
pub struct Moment<'a> {
    pub sheet: &'a Sheet,
    pub bar: &'a Bar,
    pub answer: FeedAnswer,
    pub before: &'a PositionRuntimeState,
    pub after: &'a PositionRuntimeState,
    pub lots: u16,
}

type Time = DateTime<FixedOffset>;
type BarRule = (&'static str, fn(&Moment) -> bool);
type PairRule = (&'static str, fn(&PairRow) -> bool);
type HoldRule = (&'static str, fn(&Hold) -> bool);

const OF_A_BAR: [BarRule; 31] = [
    ("no event matches", |m| m.answer.decision == 0),
    ("an event without clauses matches", |m| {
        m.event().is_some_and(|event| event.clauses.is_empty())
    }),
    ("an event with an empty key matches", |m| {
        m.event()
            .is_some_and(|event| event.clauses.iter().any(|clause| clause.key().is_empty()))
    }),
    ("an exit event opens", |m| {
        m.event().is_some_and(|event| event.exit) && m.opens().is_some()
    }),
    ("an opening event closes", |m| {
        m.event().is_some_and(|event| !event.exit) && m.closes().is_some()
    }),
    ("HL, HS or HO", |m| m.operate().is_some_and(|code| code < 3)),
    ("long opened from flat", |m| m.goes(Pos::Flat, Pos::Long)),
    ("short opened from flat", |m| m.goes(Pos::Flat, Pos::Short)),
    ("long reversed", |m| m.goes(Pos::Long, Pos::Short)),
    ("short reversed", |m| m.goes(Pos::Short, Pos::Long)),
    ("opening on the side held", |m| {
        m.opens() == Some(m.before.pos)
    }),
    ("opening refused by the interval", |m| m.is_interval_short()),
    ("whole seconds equal to the interval, the rest cut", |m| {
        m.is_interval_short() && m.is_cut_to_the_interval()
    }),
    ("whole seconds one above the interval", |m| {
        m.seconds() == Some(m.sheet.interval + 1) && m.record().is_some()
    }),
    ("refused opening closes the other side", |m| {
        m.is_interval_short() && m.record().is_some()
    }),
    ("refused opening leaves the other side on its day", |m| {
        m.is_interval_short() && m.is_held()
    }),
    ("closed by an event", |m| {
        m.closes() == Some(m.before.pos) && !m.is_held()
    }),
    ("closed by the stop", |m| m.answer.decision == 2),
    ("closed by a stop finer than a basis point", |m| {
        m.answer.decision == 2 && m.is_stop_fine()
    }),
    ("closed by the timeout", |m| m.answer.decision == 3),
    ("exit refused on the day of its opening", |m| {
        m.closes() == Some(m.before.pos) && m.is_held()
    }),
    ("exit with nothing to close", |m| {
        m.closes().is_some_and(|side| side != m.before.pos)
    }),
    ("loss equal to the stop", |m| {
        m.is_held() && m.gain() == Some(m.limit())
    }),
    ("loss equal to a stop finer than a basis point", |m| {
        m.is_held() && m.gain() == Some(m.limit()) && m.is_stop_fine()
    }),
    ("loss that a stop rounded once would judge otherwise", |m| {
        let otherwise = |gain: f64| (gain < m.limit()) != (gain < m.limit_rounded_once());
        (m.answer.decision == 2 || m.is_held() && m.sheet.t0) && m.gain().is_some_and(otherwise)
    }),
    ("id gap equal to the timeout", |m| {
        m.is_held() && m.id_gap() == Some(m.sheet.timeout)
    }),
    ("id below the reference's", |m| {
        m.is_held() && m.id_gap().is_some_and(|gap| gap < 0)
    }),
    ("closed on another local day of the same UTC day", |m| {
        m.days() == Some((true, false)) && m.after.pos == Pos::Flat
    }),
    ("kept on the same local day of another UTC day", |m| {
        m.days() == Some((false, true)) && m.is_held() && m.closes() == Some(m.before.pos)
    }),
    ("closed on another day under a seventh value of 0", |m| {
        m.says_midnight() && m.is_another_day() && m.after.pos == Pos::Flat
    }),
    ("exit refused on its day under a seventh value of 0", |m| {
        m.says_midnight() && m.closes() == Some(m.before.pos) && m.is_held()
    }),
];

/// Rules of lots, of which the Rust knows nothing: a sheet that says none reaches few of them.
const OF_LOTS: [BarRule; 9] = [
    ("opened with lots of its line", |m| {
        m.is_opened() && m.event().is_some_and(|event| event.lots.is_some())
    }),
    ("opened with 1,000 lots", |m| {
        m.is_opened() && m.event_lots() == Some(1_000)
    }),
    ("opened by an exit event with 1 lot", |m| {
        m.is_opened() && m.event().is_some_and(|event| event.exit)
    }),
    ("opening with other lots on the side held", |m| {
        m.opens() == Some(m.before.pos) && m.says_other_lots()
    }),
    ("reversed to other lots", |m| {
        m.is_opened() && m.before.pos != Pos::Flat && m.says_other_lots()
    }),
    ("refused opening closes other lots", |m| {
        m.is_interval_short() && m.record().is_some() && m.says_other_lots()
    }),
    ("several lots closed by an exit", |m| {
        m.closes() == Some(m.before.pos) && !m.is_held() && m.lots > 1
    }),
    ("several lots closed by the stop", |m| {
        m.answer.decision == 2 && m.lots > 1
    }),
    ("several lots closed by the timeout", |m| {
        m.answer.decision == 3 && m.lots > 1
    }),
];

const OF_A_PAIR: [PairRule; 15] = [
    ("pair long", |pair| pair.side == 1),
    ("pair short", |pair| pair.side == -1),
    ("pair whose ids fall", |pair| pair.ids < 0),
    ("pair yield absent", |pair| pair.bp.is_none()),
    ("pair yield infinite", |pair| {
        pair.bp.is_some_and(is_infinite)
    }),
    ("pair yield -0", |pair| pair.bp == Some((-0.0f64).to_bits())),
    ("sequence with a stop", |pair| {
        pair.sequence.contains("BP止损")
    }),
    ("sequence with a stop finer than a basis point", |pair| {
        let closing = pair.sequence.rsplit("平").next();
        closing.is_some_and(|text| text.ends_with("BP止损") && text.contains('.'))
    }),
    ("sequence with a timeout", |pair| {
        pair.sequence.contains("K超时")
    }),
    ("sequence with @LO", |pair| pair.sequence.contains("@LO")),
    ("sequence with @SO", |pair| pair.sequence.contains("@SO")),
    ("sequence with @LE", |pair| pair.sequence.contains("@LE")),
    ("sequence with @SE", |pair| pair.sequence.contains("@SE")),
    ("sequence with @is_match", |pair| {
        pair.sequence.contains("@is_match")
    }),
    ("sequence with a name's own @", |pair| {
        pair.sequence.contains("a@b")
    }),
];

const OF_A_HOLD: [HoldRule; 3] = [
    ("hold yield", |hold| hold.bp.is_some()),
    ("hold yield absent", |hold| hold.bp.is_none()),
    ("hold yield infinite", |hold| {
        hold.bp.is_some_and(is_infinite)
    }),
];

/// A late bar after one that changed the position: changed stays.
pub const LATE_AFTER_A_CHANGE: &str = "late bar after a change";

/// The names of all rules, of those of lots where they are asked for.
fn names(with_lots: bool) -> impl Iterator<Item = &'static str> {
    let lots = OF_LOTS.iter().filter(move |_| with_lots);
    let bars = OF_A_BAR
        .iter()
        .map(|rule| rule.0)
        .chain([LATE_AFTER_A_CHANGE]);
    let pairs = OF_A_PAIR.iter().map(|rule| rule.0);
    let holds = OF_A_HOLD.iter().map(|rule| rule.0);
    let lots = lots.map(|rule| rule.0);
    bars.chain(pairs).chain(holds).chain(lots)
}

/// A line for each rule, with how often it was reached.
pub fn lines(counts: &Counts, with_lots: bool) -> String {
    names(with_lots)
        .map(|name| format!("{:>10}  {name}\n", counts.get(name)))
        .collect()
}

/// Whether some rule was not reached.
pub fn is_one_missed(counts: &Counts, with_lots: bool) -> bool {
    names(with_lots).any(|name| counts.get(name) == 0)
}

pub fn count_bar(moment: &Moment, counts: &mut Counts) {
    for (name, holds) in OF_A_BAR.into_iter().chain(OF_LOTS) {
        counts.add(name, usize::from(holds(moment)));
    }
}

/// Counts the rows of a position, and the rules that they show.
pub fn count_rows(shown: &Shown, counts: &mut Counts) {
    counts.add("records", shown.records.len());
    counts.add("pairs", shown.pairs.len());
    counts.add("holds", shown.holds.len());
    for (name, holds) in OF_A_PAIR {
        counts.add(name, shown.pairs.iter().filter(|pair| holds(pair)).count());
    }
    for (name, holds) in OF_A_HOLD {
        counts.add(name, shown.holds.iter().filter(|hold| holds(hold)).count());
    }
}

fn is_infinite(bits: u64) -> bool {
    f64::from_bits(bits).is_infinite()
}

impl Moment<'_> {
    /// The event that decided the bar, if one did.
    fn event(&self) -> Option<&Event> {
        (self.answer.decision == 1).then(|| &self.sheet.events[self.answer.event as usize])
    }

    /// The lots that it opens with.
    fn event_lots(&self) -> Option<i64> {
        self.event().map(Event::opening_lots)
    }

    /// Whether they are other than the open ones.
    fn says_other_lots(&self) -> bool {
        self.event_lots() != Some(self.lots.into())
    }

    /// Whether the bar opened a side, from flat or from the other one.
    fn is_opened(&self) -> bool {
        self.after.pos != Pos::Flat && self.after.pos != self.before.pos
    }

    /// The lots that are open after the bar: those of the event that opened, else those before it.
    pub fn lots_after(&self) -> i64 {
        match self.after.pos {
            Pos::Flat => 0,
            _ if self.is_opened() => self.event_lots().unwrap_or(0),
            _ => self.lots.into(),
        }
    }

    /// The code of its operate.
    fn operate(&self) -> Option<u32> {
        self.event()
            .map(|event| raw::operate(event.operate.as_bytes()).code)
    }

    /// The side that it opens.
    fn opens(&self) -> Option<Pos> {
        match self.operate()? {
            3 => Some(Pos::Long),
            5 => Some(Pos::Short),
            _ => None,
        }
    }

    /// The side that it closes.
    fn closes(&self) -> Option<Pos> {
        match self.operate()? {
            4 => Some(Pos::Long),
            6 => Some(Pos::Short),
            _ => None,
        }
    }

    /// The record that the bar wrote.
    pub fn record(&self) -> Option<&OperateRecord> {
        self.after.operates.get(self.before.operates.len())
    }

    fn goes(&self, from: Pos, to: Pos) -> bool {
        self.before.pos == from && self.after.pos == to
    }

    /// Whether a side is held before and after the bar, the same.
    fn is_held(&self) -> bool {
        self.before.pos != Pos::Flat && self.before.pos == self.after.pos
    }

    /// The last opening of a side before the bar.
    fn last_open(&self, side: Pos) -> Option<Time> {
        let temp = self.before.temp_state.as_ref()?;
        match side {
            Pos::Long => temp.last_lo_dt,
            Pos::Short => temp.last_so_dt,
            Pos::Flat => None,
        }
    }

    fn now(&self) -> Time {
        self.after.holds[self.before.holds.len()].dt
    }

    /// Whole seconds since the last opening of the side that the event opens.
    fn seconds(&self) -> Option<i64> {
        let open = self.last_open(self.opens()?)?;
        Some((self.now() - open).num_seconds())
    }

    fn is_interval_short(&self) -> bool {
        self.opens() != Some(self.before.pos)
            && self
                .seconds()
                .is_some_and(|seconds| seconds <= self.sheet.interval)
    }

    fn is_cut_to_the_interval(&self) -> bool {
        let open = self.opens().and_then(|side| self.last_open(side));
        let exact =
            open.map(|open| (self.now() - open).num_milliseconds() > self.sheet.interval * 1_000);
        self.seconds() == Some(self.sheet.interval) && exact == Some(true)
    }

    /// The gain since the reference, of the side held.
    fn gain(&self) -> Option<f64> {
        let ratio = self.bar.price / self.after.last_event.as_ref()?.price;
        match self.before.pos {
            Pos::Long => Some(ratio - 1.0),
            Pos::Short => Some(1.0 - ratio),
            Pos::Flat => None,
        }
    }

    /// Whether the stop is no whole number of basis points.
    fn is_stop_fine(&self) -> bool {
        self.sheet.stop % 100 != 0
    }

    /// The gain that a side held must be below to be stopped.
    fn limit(&self) -> f64 {
        -self.sheet.stop_points() / 10_000.0
    }

    /// The same as one division would give it, which is another double for some stops.
    fn limit_rounded_once(&self) -> f64 {
        -(self.sheet.stop as f64) / 1_000_000.0
    }

    /// The ids since the reference, where it is an earlier bar.
    fn id_gap(&self) -> Option<i64> {
        let event = self.after.last_event.as_ref()?;
        (event.dt != self.now()).then(|| self.bar.id - i64::from(event.bar_id))
    }

    /// Whether the bar is on the UTC day, and on the local day, of the last opening of the side held; under a sheet without t0.
    fn days(&self) -> Option<(bool, bool)> {
        let (open, now) = (self.last_open(self.before.pos)?, self.now());
        let utc = open.naive_utc().date() == now.naive_utc().date();
        (!self.sheet.t0).then(|| (utc, open.date_naive() == now.date_naive()))
    }

    /// Whether the side held was opened on another local day; under a sheet without t0.
    fn is_another_day(&self) -> bool {
        self.days().is_some_and(|(_, local)| !local)
    }

    /// Whether the sheet says by its seventh value what holds without it.
    fn says_midnight(&self) -> bool {
        self.sheet.evening == Some(0)
    }
}
