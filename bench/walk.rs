//! The rows of a table, walked from the first: in place of twin/src/rows.rs where
//! tables of the largest size are measured.

/// Rows found by number; at most `lent` of them, none ever removed.
#[derive(Clone)]
pub struct Table<Row> {
    lent: usize,
    rows: Vec<Numbered<Row>>,
}

#[derive(Clone)]
struct Numbered<Row> {
    number: u32,
    row: Row,
}

impl<Row> Table<Row> {
    pub fn new(lent: usize) -> Table<Row> {
        Table {
            lent,
            rows: Vec::with_capacity(lent),
        }
    }

    fn place(&self, number: u32) -> Option<usize> {
        self.rows.iter().position(|row| row.number == number)
    }

    pub fn has(&self, number: u32) -> bool {
        self.place(number).is_some()
    }

    pub fn is_full(&self) -> bool {
        self.rows.len() == self.lent
    }

    pub fn get(&mut self, number: u32) -> Option<&mut Row> {
        let place = self.place(number)?;
        Some(&mut self.rows[place].row)
    }

    pub fn add(&mut self, number: u32, row: Row) {
        self.rows.push(Numbered { number, row });
    }
}
