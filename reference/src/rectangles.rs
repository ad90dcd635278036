//! What the functions on a rectangle of cells do. None of them changes the
//! state.

use crate::cell::{Cell, Rendition};
use crate::functions::{unshifted_sign, Scene};
use crate::page::COLUMNS;
use crate::state::{Extent, State};

/// The rows top to bottom in the columns left to right, all on the page.
#[derive(Clone, Copy)]
struct Rectangle {
    top: usize,
    left: usize,
    bottom: usize,
    right: usize,
}

impl Rectangle {
    /// By parameters in this order, of which any may be missing. None if a top
    /// is then below the bottom, or a left past the right.
    fn given(state: &State, parameters: &[u32]) -> Option<Rectangle> {
        let value = |number: usize| parameters.get(number).copied().unwrap_or(0);
        let rectangle = Rectangle {
            top: row_of(state, value(0), 1),
            left: column_of(value(1), 1),
            bottom: row_of(state, value(2), state.rows),
            right: column_of(value(3), COLUMNS),
        };
        let empty = rectangle.top > rectangle.bottom || rectangle.left > rectangle.right;
        (!empty).then_some(rectangle)
    }

    fn has(&self, (row, column): (usize, usize)) -> bool {
        self.top <= row && row <= self.bottom && self.left <= column && column <= self.right
    }

    /// Is the place in the stream from the first corner to the last?
    fn streams_over(&self, place: (usize, usize)) -> bool {
        (self.top, self.left) <= place && place <= (self.bottom, self.right)
    }
}

/// The row that a parameter names: 0 is the page's own, others count from T with
/// origin on and are held to the page.
fn row_of(state: &State, value: u32, own: usize) -> usize {
    let value = value as usize;
    let row = match (value, state.origin) {
        (0, _) => own,
        (_, false) => value,
        (_, true) => state.top + value - 1,
    };
    row.min(state.rows)
}

fn column_of(value: u32, own: usize) -> usize {
    match value as usize {
        0 => own,
        column => column.min(COLUMNS),
    }
}

impl Scene {
    /// CSI .. $ and the final.
    pub(crate) fn rectangle_function(&mut self, last: u8, parameters: &[u32]) {
        match last {
            b'z' => self.erase_rectangle(parameters, |_| Cell::BLANK),
            b'{' => self.erase_rectangle(parameters, Cell::selectively_erased),
            b'x' => self.fill_rectangle(parameters),
            b'v' => self.copy_rectangle(parameters),
            b'r' => self.restyle(parameters, Rendition::selected),
            b't' => self.restyle(parameters, Rendition::reversed),
            _ => {}
        }
    }

    fn erase_rectangle(&mut self, parameters: &[u32], erased: impl Fn(Cell) -> Cell) {
        if let Some(rectangle) = Rectangle::given(&self.state, parameters) {
            self.change_where(|place| rectangle.has(place), erased);
        }
    }

    fn fill_rectangle(&mut self, parameters: &[u32]) {
        let state = &self.state;
        let byte = u8::try_from(parameters[0]).ok();
        let sign = byte.and_then(|byte| unshifted_sign(state, byte));
        let rectangle = Rectangle::given(state, &parameters[1..]);
        if let (Some((code, set)), Some(rectangle)) = (sign, rectangle) {
            let cell = Cell::new(code, set, state.rendition, state.protection);
            self.change_where(|place| rectangle.has(place), |_| cell);
        }
    }

    /// All of the source is read before a cell is written.
    fn copy_rectangle(&mut self, parameters: &[u32]) {
        let value = |number: usize| parameters.get(number).copied().unwrap_or(0);
        if value(4) > 1 || value(7) > 1 {
            return;
        }
        let Some(source) = Rectangle::given(&self.state, parameters) else {
            return;
        };
        let top = row_of(&self.state, value(5), 1);
        let left = column_of(value(6), 1);
        let mut copies = Vec::new();
        for (row, column) in self.page.places() {
            if source.has((row, column)) {
                let target = (top + row - source.top, left + column - source.left);
                copies.push((target, self.page.cell(row, column)));
            }
        }
        for ((row, column), cell) in copies {
            if row <= self.state.rows && column <= COLUMNS {
                self.page.put(row, column, cell);
            }
        }
    }

    /// The values from the fifth parameter on, one after the other; without any
    /// one 0. If none is listed, nothing is written.
    fn restyle(&mut self, parameters: &[u32], one: impl Fn(Rendition, u32) -> Option<Rendition>) {
        let values = match parameters.len() {
            0..=4 => &[0],
            _ => &parameters[4..],
        };
        if values.iter().all(|&v| one(Rendition::PLAIN, v).is_none()) {
            return;
        }
        let Some(rectangle) = Rectangle::given(&self.state, parameters) else {
            return;
        };
        let extent = self.state.extent;
        let reached = |place: (usize, usize)| match extent {
            Extent::Stream => rectangle.streams_over(place),
            Extent::Rectangle => rectangle.has(place),
        };
        self.change_where(reached, |cell| {
            let mut rendition = cell.rendition();
            for &value in values {
                rendition = one(rendition, value).unwrap_or(rendition);
            }
            cell.with_rendition(rendition)
        });
    }

    /// Changes the cells in the places chosen, and no other.
    fn change_where(
        &mut self,
        chosen: impl Fn((usize, usize)) -> bool,
        change: impl Fn(Cell) -> Cell,
    ) {
        for (row, column) in self.page.places() {
            if chosen((row, column)) {
                self.page.change_cells(row, column, column, &change);
            }
        }
    }
}
