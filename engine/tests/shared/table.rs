//! Tables of a document.

/// A table's header line, and the cells of its rows.
#[derive(Debug, PartialEq)]
pub struct Table {
    pub header: String,
    pub rows: Vec<Vec<String>>,
}

/// The tables among some lines.
pub fn tables<'a>(lines: impl IntoIterator<Item = &'a str>) -> Vec<Table> {
    let mut tables = Vec::new();
    let mut inside = false;
    for line in lines {
        let row = line.starts_with('|');
        match tables.last_mut() {
            _ if !row => {}
            Some(table) if inside => add_row(table, line),
            _ => tables.push(Table {
                header: line.to_owned(),
                rows: Vec::new(),
            }),
        }
        inside = row;
    }
    tables
}

fn add_row(table: &mut Table, line: &str) {
    let cells = line.trim_matches('|').split('|');
    let cells: Vec<String> = cells.map(|cell| cell.trim().to_owned()).collect();
    if !cells[0].starts_with("---") {
        table.rows.push(cells);
    }
}
