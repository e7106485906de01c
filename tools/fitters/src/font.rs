//! Letters for the legend of a drawing: five by seven dots each, no more of them than it needs.

/// Dots across and down a letter.
pub const WIDE: usize = 5;
pub const HIGH: usize = 7;

/// Letters, and below them their dots, row by row.
type Strip = (&'static str, [&'static str; HIGH]);

#[rustfmt::skip]
const STRIPS: [Strip; 3] = [
    ("ABCDEFGHIKLM", [
        ".###. ####. .###. ####. ##### ##### .###. #...# .###. #...# #.... #...#",
        "#...# #...# #...# #...# #.... #.... #...# #...# ..#.. #..#. #.... ##.##",
        "#...# #...# #.... #...# #.... #.... #.... #...# ..#.. #.#.. #.... #.#.#",
        "##### ####. #.... #...# ####. ####. #.### ##### ..#.. ##... #.... #.#.#",
        "#...# #...# #.... #...# #.... #.... #...# #...# ..#.. #.#.. #.... #...#",
        "#...# #...# #...# #...# #.... #.... #...# #...# ..#.. #..#. #.... #...#",
        "#...# ####. .###. ####. ##### #.... .###. #...# .###. #...# ##### #...#",
    ]),
    ("NOPRSTUVWXY", [
        "#...# .###. ####. ####. .#### ##### #...# #...# #...# #...# #...#",
        "##..# #...# #...# #...# #.... ..#.. #...# #...# #...# #...# #...#",
        "##..# #...# #...# #...# #.... ..#.. #...# #...# #...# .#.#. .#.#.",
        "#.#.# #...# ####. ####. .###. ..#.. #...# #...# #.#.# ..#.. ..#..",
        "#..## #...# #.... #.#.. ....# ..#.. #...# .#.#. #.#.# .#.#. ..#..",
        "#..## #...# #.... #..#. ....# ..#.. #...# .#.#. ##.## #...# ..#..",
        "#...# .###. #.... #...# ####. ..#.. .###. ..#.. #...# #...# ..#..",
    ]),
    ("0123456789,:", [
        ".###. ..#.. .###. ####. ...#. ##### ..##. ##### .###. .###. ..... .....",
        "#...# .##.. #...# ....# ..##. #.... .#... ....# #...# #...# ..... ..#..",
        "#..## ..#.. ....# ....# .#.#. ####. #.... ...#. #...# #...# ..... .....",
        "#.#.# ..#.. ...#. .###. #..#. ....# ####. ..#.. .###. .#### ..... .....",
        "##..# ..#.. ..#.. ....# ##### ....# #...# ..#.. #...# ....# ..... .....",
        "#...# ..#.. .#... ....# ...#. #...# #...# .#... #...# ...#. ..#.. ..#..",
        ".###. .###. ##### ####. ...#. .###. .###. .#... .###. .##.. .#... .....",
    ]),
];

/// Whether a letter has a dot there; one that is not known has none, as a space.
pub fn is_dot(letter: char, x: usize, y: usize) -> bool {
    let place = |strip: &Strip| {
        let at = strip.0.chars().position(|other| other == letter)?;
        let dots = strip.1[y].as_bytes();
        Some(dots[at * (WIDE + 1) + x] == b'#')
    };
    STRIPS.iter().find_map(place).unwrap_or(false)
}

#[cfg(test)]
mod tests {
    use super::*;

    /// A letter as it is seen.
    fn seen(letter: char) -> Vec<String> {
        let dot = |x, y| if is_dot(letter, x, y) { '#' } else { '.' };
        let row = |y| (0..WIDE).map(|x| dot(x, y)).collect();
        (0..HIGH).map(row).collect()
    }

    #[test]
    fn letters() {
        let known: String = STRIPS.iter().map(|strip| strip.0).collect();
        let shapes: Vec<Vec<String>> = known.chars().map(seen).collect();
        for (at, shape) in shapes.iter().enumerate() {
            assert!(shape.concat().contains('#'), "{at}");
            assert!(!shapes[..at].contains(shape), "two letters alike");
        }
        let e = [
            "#####", "#....", "#....", "####.", "#....", "#....", "#####",
        ];
        assert_eq!(seen('E'), e);
        assert_eq!(seen(' ').concat(), ".".repeat(WIDE * HIGH));
    }
}
