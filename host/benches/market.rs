//! Sheets and bars for the benchmark, with texts as traders write them.

use inputs::{Bar, Clause, Event, Kind, Rng, Sheet};

/// How large a sheet is.
#[derive(Clone, Copy)]
pub struct Size {
    pub name: &'static str,
    pub events: usize,
    pub clauses: usize,
    pub keys: usize,
}

/// A common sheet, a large one, and the largest that document 01 allows.
pub const SIZES: [Size; 3] = [
    Size {
        name: "small",
        events: 4,
        clauses: 12,
        keys: 10,
    },
    Size {
        name: "middle",
        events: 16,
        clauses: 96,
        keys: 64,
    },
    Size {
        name: "largest",
        events: 32,
        clauses: 256,
        keys: 256,
    },
];

/// How many signals a bar has.
pub const SIGNALS: [usize; 3] = [10, 50, 256];

const FREQS: [&str; 4] = ["日线", "60分钟", "30分钟", "周线"];
const KINDS: [&str; 4] = ["均线", "MACD背驰", "笔结构", "成交量"];
const V1: [&str; 4] = ["看多", "看空", "向上", "其他"];
const V2: [&str; 3] = ["强势", "弱势", "震荡"];
const V3: [&str; 2] = ["第1次", "第2次"];
const ANY: &str = "任意";

/// The parts of key number k of the market; 256 of them are distinct.
fn key(k: usize) -> [String; 3] {
    [
        FREQS[k % 4].to_string(),
        format!("{}{}", KINDS[k / 4 % 4], k / 16),
        format!("V{}", 230_100 + k),
    ]
}

/// The sheet of a size: each event has as many clauses as another, and asks several keys.
pub fn sheet(size: Size) -> Sheet {
    let mut rng = Rng::new(7);
    let share = size.clauses / size.events;
    let event = |e: usize| {
        let exit = e >= size.events / 2;
        let operate = match (exit, e % 2) {
            (false, 0) => "开多",
            (false, _) => "开空",
            (true, 0) => "平多",
            (true, _) => "平空",
        };
        Event {
            exit,
            operate: operate.to_string(),
            name: format!("{operate}#事件{e}"),
            lots: None,
            clauses: (0..share)
                .map(|c| clause(&mut rng, (e * share + c) % size.keys, c == 0))
                .collect(),
        }
    };
    Sheet {
        name: "豆粕套保".to_string(),
        symbol: "M2701".to_string(),
        interval: 3_600,
        timeout: 12,
        stop: 30_000,
        decimals: 0,
        t0: false,
        evening: None,
        padded: false,
        events: (0..size.events).map(event).collect(),
    }
}

/// A clause that asks key number k; the first of an event is of the kind all.
fn clause(rng: &mut Rng, k: usize, first: bool) -> Clause {
    let [k1, k2, k3] = key(k);
    let kind = if first {
        Kind::All
    } else {
        *rng.pick(&[Kind::All, Kind::Any, Kind::Not])
    };
    let v2 = if rng.once_in(2) { ANY } else { *rng.pick(&V2) };
    let score = rng.below(60).to_string();
    let v1 = rng.pick(&V1).to_string();
    Clause {
        kind,
        parts: [k1, k2, k3, v1, v2.to_string(), ANY.to_string(), score],
    }
}

/// A season of so many bars with so many signals each: from one bar to the next every third value changes.
pub fn season(bars: usize, signals: usize) -> Vec<Bar> {
    let mut rng = Rng::new(11);
    let mut now: Vec<(String, String)> = (0..signals)
        .map(|k| (key(k).join("_"), value(&mut rng)))
        .collect();
    let mut price = 3_100.0;
    (0..bars as i64)
        .map(|i| {
            for (_, v) in now.iter_mut() {
                if rng.once_in(3) {
                    *v = value(&mut rng);
                }
            }
            price *= 1.0 + rng.between(-200, 200) as f64 / 20_000.0;
            Bar {
                id: i,
                instant: 1_000_000_000_000_000 + i * 900_000_000,
                offset: 28_800,
                price,
                signals: now.clone(),
            }
        })
        .collect()
}

/// A value as a signal function gives it.
fn value(rng: &mut Rng) -> String {
    let (v1, v2, v3) = (rng.pick(&V1), rng.pick(&V2), rng.pick(&V3));
    format!("{v1}_{v2}_{v3}_{}", rng.below(101))
}
