//! A sheet, compiled.

use crate::raw;
use crate::refusal::{Refusal, done};
use crate::signal::cut;

/// A position sheet, compiled: what every feed, save, restore and row request goes by.
#[derive(Clone, Debug, PartialEq, Eq)]
pub struct Table {
    bytes: Box<[u8]>,
}

impl Table {
    /// Compiles the text of a sheet, with [`raw::COMPILE_STACK`] bytes of the stack.
    ///
    /// ```
    /// use position_book::{Refusal, Table};
    /// let table = Table::compile("P|soy|M1|0|5|100|0\nO|LO|go\nA|d1_u_w_up_任意_任意_10\n")?;
    /// assert_eq!(table.event_name(0)?, "go");
    /// assert_eq!(Table::compile("O|LO|go\n"), Err(Refusal::Malformed));
    /// // The trading day opens at 21:00, 180 minutes before midnight.
    /// assert!(Table::compile("P|soy|M1|0|5|100|0|180\n").is_ok());
    /// // It opens with 5 lots.
    /// assert!(Table::compile("P|soy|M1|0|5|100|0\nO|LO|go|5\n").is_ok());
    /// assert_eq!(Table::compile("P|soy|M1|0|5|100|0\nO|LO|go|0\n"), Err(Refusal::WrongLots));
    /// # Ok::<(), Refusal>(())
    /// ```
    pub fn compile(sheet: impl AsRef<[u8]>) -> Result<Table, Refusal> {
        let mut bytes = vec![0; raw::TABLE_LENGTH].into_boxed_slice();
        done(raw::compile(sheet.as_ref(), &mut bytes))?;
        Ok(Table { bytes })
    }

    /// Takes a table that was stored: bytes that are no table are refused, and so is one of an earlier layout, whose
    /// sheet must be compiled again. One from before sheets had an evening, or lots, is taken, and means what it meant.
    ///
    /// ```
    /// use position_book::{Refusal, Table};
    /// let table = Table::compile("P|soy|M1|0|5|100|0\n")?;
    /// assert_eq!(Table::from_bytes(table.as_bytes())?, table);
    /// assert_eq!(Table::from_bytes(&[7; 32_768]), Err(Refusal::NotTable));
    /// # Ok::<(), Refusal>(())
    /// ```
    pub fn from_bytes(bytes: &[u8]) -> Result<Table, Refusal> {
        let mut name = [0; raw::NAME_LIMIT];
        match done(raw::event_name(bytes, 0, &mut name).number) {
            // A table without events is a table too.
            Ok(()) | Err(Refusal::NoSuchRow) => Ok(Table {
                bytes: bytes.into(),
            }),
            Err(why) => Err(why),
        }
    }

    /// The bytes of the table, to be stored.
    pub fn as_bytes(&self) -> &[u8] {
        &self.bytes
    }

    /// The name of an event by its index, counted in the sheet's order from 0.
    pub fn event_name(&self, index: usize) -> Result<String, Refusal> {
        let mut name = [0; raw::NAME_LIMIT];
        let index = i64::try_from(index).map_err(|_| Refusal::NoSuchRow)?;
        let a = raw::event_name(&self.bytes, index, &mut name);
        done(a.number)?;
        Ok(cut(&mut name.as_slice(), a.length))
    }
}
