//! A stand-in for polars, with just what the Rust's position.rs asks of it: columns are kept as they are given, nothing is worked out.
//!
//! Its prelude also supplies two methods that Debian's versions of chrono and md5 lack, and `df!` hands out a private function.

use chrono::NaiveDateTime;
use std::convert::Infallible;
use std::sync::OnceLock;

/// A column, of one of the types that position.rs has.
#[derive(Clone, Debug)]
pub enum Column {
    Text(Vec<String>),
    Time(Vec<NaiveDateTime>),
    Int(Vec<i32>),
    Double(Vec<f64>),
    Maybe(Vec<Option<f64>>),
}

impl From<Vec<&str>> for Column {
    fn from(values: Vec<&str>) -> Column {
        Column::Text(values.into_iter().map(String::from).collect())
    }
}

impl From<Vec<String>> for Column {
    fn from(values: Vec<String>) -> Column {
        Column::Text(values)
    }
}

impl From<Vec<NaiveDateTime>> for Column {
    fn from(values: Vec<NaiveDateTime>) -> Column {
        Column::Time(values)
    }
}

impl From<Vec<i32>> for Column {
    fn from(values: Vec<i32>) -> Column {
        Column::Int(values)
    }
}

impl From<Vec<f64>> for Column {
    fn from(values: Vec<f64>) -> Column {
        Column::Double(values)
    }
}

impl From<Vec<Option<f64>>> for Column {
    fn from(values: Vec<Option<f64>>) -> Column {
        Column::Maybe(values)
    }
}

/// Columns in order, without their names.
#[derive(Clone, Debug)]
pub struct DataFrame(pub Vec<Column>);

/// A literal: the only one is the column `symbol` of `holds`, which says nothing that the position does not. It is left out.
pub struct Literal;

/// What `lit` answers.
pub fn lit(_: String) -> Literal {
    Literal
}

impl Literal {
    pub fn alias(self, _: &str) -> Literal {
        self
    }
}

impl DataFrame {
    pub fn lazy(self) -> DataFrame {
        self
    }

    pub fn with_columns(self, _: [Literal; 1]) -> DataFrame {
        self
    }

    pub fn collect(self) -> Result<DataFrame, Infallible> {
        Ok(self)
    }
}

/// From an operate's text to its Chinese name.
pub type ParseOperate = fn(&str) -> Option<&'static str>;

/// position.rs's own `parse_operate`, once one of its frames was made.
pub static PARSE_OPERATE: OnceLock<ParseOperate> = OnceLock::new();

/// A data frame of columns. position.rs keeps `parse_operate` to itself and its Python part; as this macro is expanded within that file,
/// it can hand the function out.
#[macro_export]
macro_rules! df {
    ($($name:literal => $column:expr),* $(,)?) => {{
        let _ = $crate::PARSE_OPERATE.set(|text| parse_operate(text).ok().map(|operate| operate.to_chinese()));
        Ok::<_, std::convert::Infallible>($crate::DataFrame(vec![$($crate::Column::from($column)),*]))
    }};
}

pub mod prelude {
    pub use crate::{DataFrame, lit};
    use chrono::{DateTime, FixedOffset};

    /// chrono's `DateTime::fixed_offset`, which 0.4.23 lacks: a time with its own offset.
    pub trait WithFixedOffset {
        fn fixed_offset(&self) -> DateTime<FixedOffset>;
    }

    impl WithFixedOffset for DateTime<FixedOffset> {
        fn fixed_offset(&self) -> DateTime<FixedOffset> {
            *self
        }
    }

    /// md5's `Context::finalize`, which 0.7 has under the name `compute`.
    pub trait Finalize {
        fn finalize(self) -> md5::Digest;
    }

    impl Finalize for md5::Context {
        fn finalize(self) -> md5::Digest {
            self.compute()
        }
    }
}
