//! The table of models: a row of bytes for each name, which has a record or none.

use crate::record::{Record, EMPTY};
use crate::PLACES;

/// The bytes of a row: whether there is a record, F, the text byte, the factors and the modes.
pub const ROW: usize = 3 + 2 * PLACES;

/// The row of a name with this record, whose F is a byte.
pub fn row_of(record: &Record) -> Vec<u8> {
    [&[1, record.count as u8, record.text][..], &record.factor, &record.mode].concat()
}

/// The record of a row, none where its first byte is 0. Any values may stand in it.
fn record_of(row: &[u8]) -> Option<Record> {
    let mut record = Record { count: row[1] as usize, text: row[2], ..EMPTY };
    record.factor.copy_from_slice(&row[3..3 + PLACES]);
    record.mode.copy_from_slice(&row[3 + PLACES..]);
    (row[0] != 0).then_some(record)
}

/// The records of n names in a table. A name whose row is not whole has none.
pub fn records(n: usize, table: &[u8]) -> Vec<Option<Record>> {
    (0..n).map(|name| table.get(ROW * name..ROW * (name + 1)).and_then(record_of)).collect()
}
