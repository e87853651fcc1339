//! docs/PERFORMANCE.md has the tables that the benchmark prints: their columns
//! and the names of their rows. The figures are measured, and not compared.

use crate::made_up_program::MADE_UP;
use crate::proved_program::{program_at, USUAL_PLACE};
use crate::table::{tables, Table};
use crate::tables::tables_of;
use crate::timing_program::TIMING;
use std::process::Command;

/// A table without its figures.
fn outline(table: &Table) -> (String, Vec<String>) {
    let names = table.rows.iter().map(|row| row[0].clone()).collect();
    (table.header.clone(), names)
}

#[test]
fn document_has_the_tables_of_the_benchmark() {
    let proved = [USUAL_PLACE, MADE_UP, TIMING].map(program_at);
    if proved.contains(&None) {
        return;
    }
    let output = Command::new(env!("CARGO_BIN_EXE_bench"))
        .args(["--records", "5000"])
        .args(["--engine-replay", env!("CARGO_BIN_EXE_engine-replay")])
        .args(["--engine-made-up", env!("CARGO_BIN_EXE_made-up")])
        .output()
        .unwrap();
    assert!(output.status.success());
    let printed = String::from_utf8(output.stdout).unwrap();
    let printed: Vec<_> = tables(printed.lines()).iter().map(outline).collect();
    assert_eq!(printed.len(), 4);
    let documented: Vec<_> = tables_of("docs/PERFORMANCE.md")
        .iter()
        .map(outline)
        .collect();
    for table in printed {
        assert!(documented.contains(&table), "{table:?} in {documented:?}");
    }
}
