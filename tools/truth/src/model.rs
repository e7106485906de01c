//! The blur of one pixel in f32, for the search, where a call of the library for each try would take too long.

/// The mean of a window, rounded as the map's is: along each row left to right and divided, then top to bottom and multiplied by the
/// rounded reciprocal. A window of one pixel leaves it as it is.
pub fn mean(columns: usize, rows: usize, at: impl Fn(usize, usize) -> f32) -> f32 {
    let mut all = 0.0;
    for row in 0..rows {
        let mut along = 0.0;
        for column in 0..columns {
            along += at(column, row);
        }
        all += along / columns as f32;
    }
    all * (1.0 / rows as f32)
}
