//! Why pixels are no corners, over the working image: a mark for each candidate above the floor, and a legend below.

use steyrbunk::{Candidate, Candidates, Verdict, Verdicts};

use crate::draw::enlarged;
use crate::font;
use crate::png::{png, Channels};
use crate::why::counted;

/// The ending of such a drawing.
pub const ENDING: &str = "why.png";

/// The picture is dimmed to the greys from here to here, so that marks stand out on dark and on bright squares.
const DARKEST: usize = 56;
const BRIGHTEST: usize = 200;
const BLACK: u8 = 0;
/// The palette's first place behind these greys. There stands white; the colour of a verdict is as many places further as its number.
const WHITE: u8 = BRIGHTEST as u8 + 1;

/// White, and a colour for each verdict but the first: such as people tell apart who do not see red, green or blue as others do.
const COLOURS: [[u8; 3]; 6] = [
    [255, 255, 255],
    [86, 180, 233],
    [230, 159, 0],
    [240, 228, 66],
    [213, 94, 0],
    [0, 158, 115],
];

/// What a verdict is marked by besides its colour, about the pixel's middle. Not above the floor are most pixels: these have no mark.
fn shape(verdict: Verdict) -> &'static [&'static str] {
    match verdict {
        Verdict::NotAbove => &[],
        Verdict::Beaten => &["#"],
        Verdict::TooFew => &[
            "#######", "#.....#", "#.....#", "#..#..#", "#.....#", "#.....#", "#######",
        ],
        Verdict::TooFlat => &["#######"],
        Verdict::WrongCurvature => &[
            "#.....#", ".#...#.", "..#.#..", "...#...", "..#.#..", ".#...#.", "#.....#",
        ],
        Verdict::Kept => &["#", "#", "#", "#######", "#", "#", "#"],
    }
}

fn colour(verdict: Verdict) -> u8 {
    WHITE + verdict.number() as u8
}

fn dimmed(pixel: u8) -> u8 {
    (DARKEST + usize::from(pixel) * (BRIGHTEST - DARKEST) / 255) as u8
}

fn palette() -> Vec<[u8; 3]> {
    let greys = (0..WHITE).map(|grey| [grey; 3]);
    greys.chain(COLOURS).collect()
}

/// Dots of a letter of the legend, and of its marks, are so large; a line of it is so high.
const DOT: usize = 2;
const LINE: usize = 10 * DOT;
/// What is left free about the legend.
const MARGIN: usize = 4 * DOT;
/// Where the words of a line begin.
const WORDS: usize = 3 * LINE;

/// The drawing, or how its marks differ from what the call counted.
pub fn drawn(
    candidates: &Candidates,
    working: &[u8],
    (width, height): (usize, usize),
    told: Verdicts,
) -> Result<Vec<u8>, String> {
    let marked = marked(candidates.iter(), told)?;
    let scale = enlarged(width, height);
    let legend = legend(width, height, told);
    let wide = legend.iter().map(|(_, words)| wide(words)).max();
    let mut canvas = Canvas::new(
        (scale * width).max(wide.unwrap_or(0)),
        scale * height + legend.len() * LINE + 2 * MARGIN,
    );
    canvas.picture(working, width, scale);
    canvas.line_about(candidates, scale);
    canvas.marks(&marked, scale);
    canvas.legend(&legend, scale * height + MARGIN);
    Ok(canvas.png())
}

/// The candidates that are marked; all of them together must be what the call counted.
fn marked(
    candidates: impl Iterator<Item = Candidate>,
    told: Verdicts,
) -> Result<Vec<Candidate>, String> {
    let mut counts = [0; Verdict::ALL.len()];
    let mut marked = Vec::new();
    for candidate in candidates {
        counts[candidate.verdict.number() as usize] += 1;
        if candidate.verdict != Verdict::NotAbove {
            marked.push(candidate);
        }
    }
    let judged = Verdicts::from(counts);
    let differs = |verdict: &Verdict| judged.of(*verdict) != told.of(*verdict);
    let each: Vec<String> = Verdict::ALL
        .into_iter()
        .filter(differs)
        .map(|verdict| {
            let (words, judged, told) = (verdict.words(), judged.of(verdict), told.of(verdict));
            format!("{words} {judged} times, and the call counted {told}")
        })
        .collect();
    if each.is_empty() {
        Ok(marked)
    } else {
        Err(format!(
            "the verdicts one by one are not the six counts of the call, and nothing is drawn: {}",
            each.join("; ")
        ))
    }
}

/// The lines of the legend, each with its mark.
fn legend(width: usize, height: usize, told: Verdicts) -> Vec<(Option<Verdict>, String)> {
    let count = |words: &str, count: usize| format!("{words}: {}", counted(count)).to_uppercase();
    let mark = |verdict: Verdict| (Some(verdict), count(verdict.words(), told.of(verdict)));
    let mut lines = vec![
        (None, format!("{width} X {height} WORKING PIXELS")),
        (None, count("candidates inside the line", told.total())),
    ];
    let marked = Verdict::ALL.into_iter().rev();
    lines.extend(
        marked
            .filter(|verdict| *verdict != Verdict::NotAbove)
            .map(mark),
    );
    let not_above = format!("{}, not marked", Verdict::NotAbove.words());
    lines.push((None, count(&not_above, told.not_above)));
    lines
}

/// How wide a line of the legend is.
fn wide(words: &str) -> usize {
    WORDS + words.len() * (font::WIDE + 1) * DOT + MARGIN
}

/// A picture whose pixels are places of the palette.
struct Canvas {
    width: usize,
    pixels: Vec<u8>,
}

impl Canvas {
    fn new(width: usize, height: usize) -> Canvas {
        Canvas {
            width,
            pixels: vec![BLACK; width * height],
        }
    }

    fn png(&self) -> Vec<u8> {
        let height = self.pixels.len() / self.width;
        png(
            self.width,
            height,
            Channels::Palette(&palette()),
            &self.pixels,
        )
    }

    /// A block whose first pixel is there; what lies outside is left out.
    fn block(&mut self, (x, y): (isize, isize), side: usize, colour: u8) {
        let inside = |from: isize, end: usize| {
            let until = from.saturating_add_unsigned(side).max(0) as usize;
            from.max(0) as usize..until.min(end)
        };
        for y in inside(y, self.pixels.len() / self.width) {
            for x in inside(x, self.width) {
                self.pixels[y * self.width + x] = colour;
            }
        }
    }

    fn picture(&mut self, working: &[u8], width: usize, scale: usize) {
        for (at, pixel) in working.iter().enumerate() {
            let place = |at: usize| (at * scale) as isize;
            self.block(
                (place(at % width), place(at / width)),
                scale,
                dimmed(*pixel),
            );
        }
    }

    /// A line about all candidates, on pixels that are none.
    fn line_about(&mut self, candidates: &Candidates, scale: usize) {
        let ends = |range: std::ops::Range<usize>| {
            (
                (range.start * scale) as isize - 1,
                (range.end * scale) as isize,
            )
        };
        let ((left, right), (top, bottom)) = (ends(candidates.columns()), ends(candidates.rows()));
        for x in left..=right {
            self.block((x, top), 1, WHITE);
            self.block((x, bottom), 1, WHITE);
        }
        for y in top..=bottom {
            self.block((left, y), 1, WHITE);
            self.block((right, y), 1, WHITE);
        }
    }

    /// All marks: those of beaten places first, which may be hidden; then the peaks, with black about them, and last the middle of each
    /// peak, so that no other hides whose it is.
    fn marks(&mut self, marked: &[Candidate], scale: usize) {
        let middle = |candidate: &Candidate| {
            let place = |at: usize| (at * scale + scale / 2) as isize;
            (place(candidate.x), place(candidate.y))
        };
        let (beaten, peaks): (Vec<&Candidate>, Vec<&Candidate>) = marked
            .iter()
            .partition(|candidate| candidate.verdict == Verdict::Beaten);
        for candidate in beaten {
            self.mark(Verdict::Beaten, middle(candidate), scale.min(3), false);
        }
        let dot = (scale / 3).clamp(1, 3);
        for about in [true, false] {
            for candidate in &peaks {
                self.mark(candidate.verdict, middle(candidate), dot, about);
            }
        }
        for candidate in &peaks {
            self.block(middle(candidate), 1, colour(candidate.verdict));
        }
    }

    /// The shape of a verdict about a pixel, of dots so large; or the black about it.
    fn mark(&mut self, verdict: Verdict, (x, y): (isize, isize), unit: usize, about: bool) {
        let (side, colour) = match about {
            true => (unit + 2, BLACK),
            false => (unit, colour(verdict)),
        };
        let rows = shape(verdict);
        for (row, dots) in rows.iter().enumerate() {
            for (column, _) in dots.bytes().enumerate().filter(|(_, dot)| *dot == b'#') {
                let place = |at: usize, of: usize, middle: isize| {
                    let steps = at as isize - (of / 2) as isize;
                    middle + steps * unit as isize - (side / 2) as isize
                };
                let (x, y) = (place(column, dots.len(), x), place(row, rows.len(), y));
                self.block((x, y), side, colour);
            }
        }
    }

    fn legend(&mut self, lines: &[(Option<Verdict>, String)], top: usize) {
        for (at, (verdict, words)) in lines.iter().enumerate() {
            let y = top + at * LINE;
            if let Some(verdict) = verdict {
                let middle = ((MARGIN + LINE) as isize, (y + LINE / 2) as isize);
                let dot = match verdict {
                    Verdict::Beaten => 2 * DOT,
                    _ => DOT,
                };
                self.mark(*verdict, middle, dot, false);
            }
            self.words(words, WORDS, y + (LINE - font::HIGH * DOT) / 2);
        }
    }

    fn words(&mut self, words: &str, left: usize, top: usize) {
        for (at, letter) in words.chars().enumerate() {
            let left = left + at * (font::WIDE + 1) * DOT;
            for (x, y) in (0..font::HIGH).flat_map(|y| (0..font::WIDE).map(move |x| (x, y))) {
                if font::is_dot(letter, x, y) {
                    let place = ((left + x * DOT) as isize, (top + y * DOT) as isize);
                    self.block(place, DOT, WHITE);
                }
            }
        }
    }
}

#[cfg(test)]
mod tests {
    use super::*;

    fn one_of_each() -> Vec<Candidate> {
        let candidate = |(x, verdict)| Candidate { x, y: 0, verdict };
        Verdict::ALL
            .into_iter()
            .enumerate()
            .map(candidate)
            .collect()
    }

    /// Marks that are not what the call counted are told by name and number, and there is no drawing.
    #[test]
    fn marks_that_differ() {
        let same = marked(one_of_each().into_iter(), [1; 6].into()).expect("the same");
        assert_eq!(same, one_of_each()[1..]);
        let told = [1, 1, 1, 2, 0, 1].into();
        let text = marked(one_of_each().into_iter(), told).expect_err("they differ");
        assert_eq!(
            text,
            "the verdicts one by one are not the six counts of the call, and nothing is drawn: \
             too flat 1 times, and the call counted 2; wrong curvature 1 times, and the call counted 0"
        );
        // Those that have no mark are held as well.
        let text = marked(one_of_each().into_iter(), [2, 1, 1, 1, 1, 1].into());
        assert!(text
            .expect_err("they differ")
            .ends_with(": not above the floor 1 times, and the call counted 2"));
    }

    /// The legend has a line for each verdict, its letters are all known, and that pixels below the floor have no mark is said.
    #[test]
    fn lines_of_the_legend() {
        let told = Verdicts::from([8_388_608, 51_234, 0, 7, 896, 15]);
        let lines = legend(640, 480, told);
        let words: Vec<&str> = lines.iter().map(|(_, words)| words.as_str()).collect();
        assert_eq!(
            words,
            [
                "640 X 480 WORKING PIXELS",
                "CANDIDATES INSIDE THE LINE: 8,440,760",
                "KEPT: 15",
                "WRONG CURVATURE: 896",
                "TOO FLAT: 7",
                "TOO FEW POSITIVE NEIGHBOURS: 0",
                "BEATEN BY A NEIGHBOUR: 51,234",
                "NOT ABOVE THE FLOOR, NOT MARKED: 8,388,608",
            ]
        );
        for letter in words.concat().chars().filter(|letter| *letter != ' ') {
            let places = (0..font::HIGH).flat_map(|y| (0..font::WIDE).map(move |x| (x, y)));
            let dots = places.filter(|(x, y)| font::is_dot(letter, *x, *y));
            assert!(dots.count() > 0, "{letter}");
        }
    }

    /// No two verdicts have one shape or one colour, and marks are no grey of the picture.
    #[test]
    fn marks_apart() {
        for (at, verdict) in Verdict::ALL.into_iter().enumerate() {
            for other in &Verdict::ALL[..at] {
                assert_ne!(shape(verdict), shape(*other));
                assert_ne!(
                    palette()[colour(verdict) as usize],
                    palette()[colour(*other) as usize]
                );
            }
        }
        assert!((0..=255)
            .map(dimmed)
            .all(|grey| grey > BLACK && grey < WHITE));
        assert_eq!((dimmed(0), dimmed(255)), (56, 200));
    }
}
