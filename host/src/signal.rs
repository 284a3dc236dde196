//! Signals and operates alone, and the text of a bar's signals.

use crate::raw;
use crate::refusal::{Refusal, done};
use std::fmt;
use std::str::FromStr;

/// A signal as a sheet has it: `k1_k2_k3_v1_v2_v3_score`.
#[derive(Clone, Debug, PartialEq, Eq, Hash)]
pub struct Signal {
    /// k1, k2 and k3 without wildcards, joined by `_`.
    pub key: String,
    pub v1: String,
    pub v2: String,
    pub v3: String,
    /// 0 to 1,000.
    pub score: u32,
}

impl FromStr for Signal {
    type Err = Refusal;

    /// Reads a signal alone.
    ///
    /// ```
    /// use position_book::{Refusal, Signal};
    /// let s: Signal = "日线_任意_均线_向上_任意_任意_60".parse()?;
    /// assert_eq!((s.key.as_str(), s.v1.as_str(), s.score), ("日线_均线", "向上", 60));
    /// assert_eq!("日线_均线_60".parse::<Signal>(), Err(Refusal::WrongParts));
    /// # Ok::<(), Refusal>(())
    /// ```
    fn from_str(text: &str) -> Result<Signal, Refusal> {
        let mut out = vec![0; text.len()];
        let a = raw::signal(text.as_bytes(), &mut out);
        done(a.number)?;
        let mut rest = out.as_slice();
        Ok(Signal {
            key: cut(&mut rest, a.key),
            v1: cut(&mut rest, a.v1),
            v2: cut(&mut rest, a.v2),
            v3: cut(&mut rest, a.v3),
            score: a.score as u32,
        })
    }
}

/// The first n bytes as a text, which are then behind us.
pub(crate) fn cut(rest: &mut &[u8], n: usize) -> String {
    let (first, later) = rest.split_at(n);
    *rest = later;
    String::from_utf8_lossy(first).into_owned()
}

/// What an event does when it is chosen.
#[derive(Clone, Copy, Debug, PartialEq, Eq, Hash)]
pub enum Operate {
    HL,
    HS,
    HO,
    LO,
    LE,
    SO,
    SE,
}

impl Operate {
    /// Every operate, in the order of its code.
    pub const ALL: [Operate; 7] = [
        Operate::HL,
        Operate::HS,
        Operate::HO,
        Operate::LO,
        Operate::LE,
        Operate::SO,
        Operate::SE,
    ];

    /// Its code, 0 to 6.
    pub fn code(self) -> u32 {
        self as u32
    }

    /// Its Chinese name.
    ///
    /// ```
    /// use position_book::Operate;
    /// assert_eq!(Operate::LO.to_chinese(), "开多");
    /// ```
    pub fn to_chinese(self) -> String {
        let mut out = [0; 6];
        let a = raw::operate_name(self.code(), &mut out);
        cut(&mut out.as_slice(), a.length)
    }
}

impl FromStr for Operate {
    type Err = Refusal;

    /// Reads an operate in either spelling; case counts.
    ///
    /// ```
    /// use position_book::{Operate, Refusal};
    /// assert_eq!("平空".parse(), Ok(Operate::SE));
    /// assert_eq!("SE".parse(), Ok(Operate::SE));
    /// assert_eq!("se".parse::<Operate>(), Err(Refusal::UnknownOperate));
    /// ```
    fn from_str(text: &str) -> Result<Operate, Refusal> {
        let a = raw::operate(text.as_bytes());
        done(a.number)?;
        Ok(Operate::ALL[a.code as usize])
    }
}

impl fmt::Display for Operate {
    fn fmt(&self, f: &mut fmt::Formatter<'_>) -> fmt::Result {
        write!(f, "{self:?}")
    }
}

/// The text of a bar's signals, a line for each key and value. A key or value that has `|` or LF is refused, since it could not be told
/// from two.
///
/// ```
/// use position_book::{Refusal, signal_lines};
/// assert_eq!(signal_lines([("d1_u_w", "up_a_b_10")])?, "d1_u_w|up_a_b_10\n");
/// assert_eq!(signal_lines([("d1|u", "up")]), Err(Refusal::Malformed));
/// # Ok::<(), Refusal>(())
/// ```
pub fn signal_lines<K: AsRef<str>, V: AsRef<str>>(
    signals: impl IntoIterator<Item = (K, V)>,
) -> Result<String, Refusal> {
    let mut lines = String::new();
    for (key, value) in signals {
        let (key, value) = (key.as_ref(), value.as_ref());
        if key.contains(['|', '\n']) || value.contains(['|', '\n']) {
            return Err(Refusal::Malformed);
        }
        lines.extend([key, "|", value, "\n"]);
    }
    Ok(lines)
}
