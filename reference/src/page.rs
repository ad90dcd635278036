//! The page as rows of unpacked cells. Rows and columns count from 1.

use crate::cell::Cell;

pub const COLUMNS: usize = 80;

pub type Row = [Cell; COLUMNS];

const BLANK_ROW: Row = [Cell::BLANK; COLUMNS];

#[derive(Clone, PartialEq, Debug)]
pub struct Page {
    rows: Vec<Row>,
}

impl Page {
    /// The words must be whole rows.
    pub fn of_words(words: &[u16]) -> Page {
        let mut rows = Vec::with_capacity(words.len() / COLUMNS);
        for line in words.chunks_exact(COLUMNS) {
            let mut row = BLANK_ROW;
            for (cell, &word) in row.iter_mut().zip(line) {
                *cell = Cell::of_word(word);
            }
            rows.push(row);
        }
        Page { rows }
    }

    /// Writes every cell's word. There must be as many words as cells.
    pub fn write_words(&self, words: &mut [u16]) {
        for (line, row) in words.chunks_exact_mut(COLUMNS).zip(&self.rows) {
            for (word, cell) in line.iter_mut().zip(row) {
                *word = cell.word();
            }
        }
    }

    /// Has the row here another cell than in the other page?
    pub fn row_differs(&self, other: &Page, row: usize) -> bool {
        let here = &self.rows[row - 1];
        let there = &other.rows[row - 1];
        let mut differs = false;
        for column in 1..=COLUMNS {
            differs |= here[column - 1].all_fields() != there[column - 1].all_fields();
        }
        differs
    }

    pub fn cell(&self, row: usize, column: usize) -> Cell {
        self.rows[row - 1][column - 1]
    }

    /// Every row and column of the page, in reading order.
    pub fn places(&self) -> Vec<(usize, usize)> {
        let mut places = Vec::new();
        for row in 1..=self.rows.len() {
            for column in 1..=COLUMNS {
                places.push((row, column));
            }
        }
        places
    }

    pub fn put(&mut self, row: usize, column: usize, cell: Cell) {
        self.rows[row - 1][column - 1] = cell;
    }

    pub fn fill(&mut self, cell: Cell) {
        for row in &mut self.rows {
            *row = [cell; COLUMNS];
        }
    }

    /// Changes the cells of one row from the first to the last column named,
    /// both included.
    pub fn change_cells(
        &mut self,
        row: usize,
        first: usize,
        last: usize,
        change: impl Fn(Cell) -> Cell,
    ) {
        for column in first..=last {
            let cell = &mut self.rows[row - 1][column - 1];
            *cell = change(*cell);
        }
    }

    /// `n` blank rows enter at row `first`; the rows from there to `last` move
    /// down, and those that move past `last` are lost.
    pub fn insert_rows(&mut self, first: usize, last: usize, n: usize) {
        for _ in 0..n.min(last - first + 1) {
            self.rows.remove(last - 1);
            self.rows.insert(first - 1, BLANK_ROW);
        }
    }

    /// `n` rows are lost at row `first`; the rows from there to `last` move up,
    /// and blank rows enter at `last`.
    pub fn delete_rows(&mut self, first: usize, last: usize, n: usize) {
        for _ in 0..n.min(last - first + 1) {
            self.rows.remove(first - 1);
            self.rows.insert(last - 1, BLANK_ROW);
        }
    }

    /// `n` blank cells enter at the column; what moves past column 80 is lost.
    pub fn insert_cells(&mut self, row: usize, column: usize, n: usize) {
        self.remake_row(row, |cells| {
            for _ in 0..n.min(COLUMNS - column + 1) {
                cells.insert(column - 1, Cell::BLANK);
                cells.pop();
            }
        });
    }

    /// `n` cells are lost at the column; blank ones enter at column 80.
    pub fn delete_cells(&mut self, row: usize, column: usize, n: usize) {
        self.remake_row(row, |cells| {
            for _ in 0..n.min(COLUMNS - column + 1) {
                cells.remove(column - 1);
                cells.push(Cell::BLANK);
            }
        });
    }

    fn remake_row(&mut self, row: usize, change: impl Fn(&mut Vec<Cell>)) {
        let mut cells = self.rows[row - 1].to_vec();
        change(&mut cells);
        self.rows[row - 1].copy_from_slice(&cells);
    }
}
