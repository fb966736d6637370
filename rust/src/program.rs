//! The program's answer to a sheet.

use crate::base::{self, Refusal};
use std::fmt::Write;

/// The longest sheet that the program reads, in bytes.
pub const LONGEST_INPUT: usize = 65_536;

/// What the program prints for this input.
pub fn printed(input: &[u8]) -> String {
    if input.len() > LONGEST_INPUT {
        return "sheet too long\n".into();
    }
    match planned(input) {
        Ok(plan) => plan,
        Err(Refusal { number, place }) => format!("refused {number} at {place}\n"),
    }
}

fn planned(sheet: &[u8]) -> Result<String, Refusal> {
    let (mut list, mut table) = ([0; base::LONGEST_LIST], [0; base::LONGEST_TABLE]);
    let list_length = base::list_from_sheet(sheet, &mut list)?;
    let list = &list[..list_length];
    let table_length = base::plan(list, &mut table)?;
    let table = base::Table::read(&table[..table_length])?;
    let mut text = String::new();
    let (cycle, frame, grants, load) = (table.cycle, table.frame, table.grants().count(), base::load(list)?);
    writeln!(text, "cycle {cycle} frame {frame} grants {grants} load {load}").expect("a string takes all");
    for base::Grant { number, start, late, .. } in table.grants() {
        writeln!(text, "grant {start} flow {number} late {late}").expect("a string takes all");
    }
    Ok(text)
}
