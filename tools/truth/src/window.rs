//! The window of a blurred pixel, cut at the map's edges.

/// Where it begins and how far it goes.
#[derive(Clone, Copy, Debug, PartialEq, Eq)]
pub struct Window {
    pub left: usize,
    pub top: usize,
    pub columns: usize,
    pub rows: usize,
}

/// The first of the places about one of them, and how many there are.
fn cut(at: usize, places: usize, blur: usize) -> (usize, usize) {
    let first = at.saturating_sub(blur);
    (first, (at + blur + 1).min(places) - first)
}

impl Window {
    /// About a pixel of a map.
    pub fn about((x, y): (usize, usize), (width, height): (usize, usize), blur: usize) -> Window {
        let (left, columns) = cut(x, width, blur);
        let (top, rows) = cut(y, height, blur);
        Window {
            left,
            top,
            columns,
            rows,
        }
    }

    /// Its pixels.
    pub fn count(&self) -> usize {
        self.columns * self.rows
    }

    /// Sums and the division along a row; sums, reciprocal and product down a column. The first sum of each, from zero, is exact.
    pub fn roundings(&self) -> usize {
        self.columns + self.rows + 1
    }
}
