//! `bench`: each pass, map, list and whole, ours and the Rust's two builds, on the same frames in one run.

mod arch;
mod clock;
mod frames;
mod library;
mod pass;
#[cfg(passes)]
mod passes;
mod scalars;
mod sides;
mod table;
mod versions;

use std::process::ExitCode;

use clock::timed;
use console::{Usage, Word, Words};
use frames::Picture;
use library::Library;
use pass::Pass;
use sides::{sides, Side};
use steyrbunk::{Image, PeakFit, Settings};
use table::{Row, Times};

const HELP: &str = "\
bench times the proved finder against the published Rust, one thread each, and prints Markdown.

  bench [--repeats N] [FRAMES]
  bench [--repeats N] [FRAMES] --arch
  bench [--repeats N] [FRAMES] [--parabolic] --before LIBRARY --after LIBRARY
  bench [--repeats N] --scalars [--before LIBRARY --after LIBRARY]
  bench --distances [--before LIBRARY --after LIBRARY]

  --repeats N       timed calls of each kind, of which the median counts (default 9)
FRAMES:
  --picture NAME    what the frames show: panel (default; a turned board, twenty cells across), board
                    (small cells), noise or flat
  --largest WIDTH   leaves out frames that are wider
  --nms-radius N    the suppression radius, 0 to 16; if it is not named 4, that of the existing sites and
                    of the published Rust's own defaults, with which all earlier figures were taken
The others:
  --arch            times arches of 2, 4 and 8 cameras beside their single calls instead
  --before, --after times two builds of ours instead, as tools/version makes them, those from before the
                    six counts too
  --parabolic       with these, peaks are fitted by a parabola and not by logarithms
  --scalars         times root and logarithm beside the platform's instead
  --distances       measures instead how far these lie apart, over every f32 of their ranges
With --before and --after these two take the logarithms of both builds.

The sides take turns, call by call, so that what disturbs the machine disturbs them alike. Before
the timed calls each side is called once; buffers are kept from call to call and never cleared.
On Linux the time is the processor time of the thread. Nothing is asserted about it. That all sides
find the same number of corners, and that every pass leaves the same working image and map, is.
";

/// Each at factor 1, and at 2 where a working image may have as many pixels; the fourth is then as wide as any.
const SIZES: [(usize, usize); 5] = [
    (640, 480),
    (1_280, 960),
    (2_048, 1_024),
    (4_096, 512),
    (4_096, 2_048),
];

/// The greatest suppression radius that leaves a candidate in every frame, those of 48 by 48 too.
const WIDEST: u32 = 16;

/// Width, height and factor of all that are no wider.
fn sizes(largest: usize) -> Vec<(usize, usize, u32)> {
    let wanted = SIZES.into_iter().filter(|(width, _)| *width <= largest);
    let each = wanted.flat_map(|(width, height)| [1, 2].map(|factor| (width, height, factor)));
    let room = |(width, height, factor): &(usize, usize, u32)| {
        width * height * (factor * factor) as usize <= limits::WORKING
    };
    each.filter(room).collect()
}

/// What the call asks for.
enum Ask {
    Table,
    Arch,
    Scalars,
    Distances,
}

struct Options {
    ask: Ask,
    /// One build of ours before a change, and one after it.
    versions: Option<[Library; 2]>,
    /// Those of the frames, but for the factor and a map's blur.
    settings: Settings,
    repeats: usize,
    picture: (String, Picture),
    largest: usize,
}

fn options(mut words: Words) -> Result<Options, Usage> {
    let mut options = Options {
        ask: Ask::Table,
        versions: None,
        settings: Settings::existing_sites(),
        repeats: 9,
        picture: ("panel".to_string(), Picture::Panel),
        largest: usize::MAX,
    };
    let [mut before, mut after]: [Option<String>; 2] = [None, None];
    while let Some(word) = words.word()? {
        let Word::Flag(flag) = word else {
            return Usage::wrong("bench takes no paths");
        };
        match flag.as_str() {
            "--repeats" => options.repeats = words.value::<usize>(&flag, "a number")?.max(1),
            "--arch" => options.ask = Ask::Arch,
            "--before" => before = Some(words.value(&flag, "a library")?),
            "--after" => after = Some(words.value(&flag, "a library")?),
            "--parabolic" => options.settings.peak_fit = PeakFit::Parabolic,
            "--nms-radius" => match words.value(&flag, "0 to 16")? {
                radius @ 0..=WIDEST => options.settings.nms_radius = radius,
                radius => return Usage::wrong(format!("{flag} wants 0 to 16, not '{radius}'")),
            },
            "--scalars" => options.ask = Ask::Scalars,
            "--distances" => options.ask = Ask::Distances,
            "--largest" => options.largest = words.value(&flag, "a width")?,
            "--picture" => {
                let name: String = words.value(&flag, Picture::NAMES)?;
                let picture = Picture::from_name(&name);
                let picture =
                    picture.ok_or_else(|| Usage::Wrong(format!("no picture is called {name}")))?;
                options.picture = (name, picture);
            }
            _ => return Usage::wrong(format!("{flag} is not known")),
        }
    }
    match (before, after) {
        (Some(before), Some(after)) => options.versions = Some([open(&before)?, open(&after)?]),
        (None, None) => {}
        _ => return Usage::wrong("--before and --after go together"),
    }
    let table = matches!(options.ask, Ask::Table) && options.versions.is_some();
    if options.settings.peak_fit == PeakFit::Parabolic && !table {
        return Usage::wrong("--parabolic is for the table of two builds");
    }
    if matches!(options.ask, Ask::Arch) && options.versions.is_some() {
        return Usage::wrong("--arch is not for two builds");
    }
    Ok(options)
}

fn open(path: &str) -> Result<Library, Usage> {
    Library::open(path).map_err(Usage::Wrong)
}

/// Two blocks to copy between: a copy of n bytes reads n and writes n.
struct Copy {
    from: Vec<u8>,
    to: Vec<u8>,
}

impl Copy {
    fn new(longest: usize) -> Copy {
        Copy {
            from: vec![1; longest],
            to: vec![2; longest],
        }
    }

    fn moves(&mut self, bytes: usize) {
        let half = bytes / 2;
        self.to[..half].copy_from_slice(&self.from[..half]);
        std::hint::black_box(&mut self.to);
    }
}

/// One image at one factor, and what the calls share.
struct Frame<'a> {
    image: Image<'a>,
    factor: u32,
    settings: Settings,
    repeats: usize,
    copy: &'a mut Copy,
}

impl Frame<'_> {
    fn working(&self) -> usize {
        self.image.pixels.len() * (self.factor * self.factor) as usize
    }

    /// The three sides turn by turn, after one call of each that does not count.
    fn row(&mut self, pass: Pass) -> Row {
        let mut sides = sides(self.image, pass.settings(self.settings, self.factor));
        let counts = sides.each_mut().map(|side| side.count());
        assert_eq!(counts, [counts[0]; 3], "corners");
        let moved = pass.moved(self.image.pixels.len(), self.working());
        for side in &mut sides {
            side.spoil(pass);
            side.call(pass);
        }
        self.copy.moves(moved);
        let mut times = Times::default();
        for _ in 0..self.repeats {
            let calls = sides.each_mut().map(|side| timed(|| side.call(pass)));
            times.add(calls, timed(|| self.copy.moves(moved)));
        }
        let [ours, others @ ..] = sides.each_ref().map(|side| left(&**side));
        assert!(others.iter().all(|other| *other == ours), "different maps");
        Row {
            size: format!(
                "{}x{} x{}",
                self.image.width, self.image.height, self.factor
            ),
            pass: pass.name(),
            working: self.working(),
            corners: (!pass.is_single()).then_some(counts[0]),
            moved,
            times,
        }
    }
}

/// Working image and response, to the bit.
fn left(side: &dyn Side) -> (&[u8], Vec<u32>) {
    let (working, response) = side.left();
    (
        working,
        response.iter().map(|value| value.to_bits()).collect(),
    )
}

fn run(options: &Options) {
    let mut copy = Copy::new(Pass::Whole.moved(limits::WORKING, limits::WORKING) / 2);
    table::open(
        options.repeats,
        &options.picture.0,
        options.settings.nms_radius,
    );
    for (width, height, factor) in sizes(options.largest) {
        let pixels = options.picture.1.pixels(width, height);
        let mut frame = Frame {
            image: Image {
                pixels: &pixels,
                width,
                height,
            },
            factor,
            settings: options.settings,
            repeats: options.repeats,
            copy: &mut copy,
        };
        for pass in Pass::all().filter(|pass| cfg!(passes) || !pass.is_single()) {
            frame.row(pass).print();
        }
    }
    table::close(cfg!(passes));
}

fn main() -> ExitCode {
    console::run("bench", HELP, |words| {
        let options = options(words)?;
        let (repeats, picture, largest) = (options.repeats, &options.picture, options.largest);
        let (versions, settings) = (options.versions.as_ref(), options.settings);
        match (&options.ask, versions) {
            (Ask::Table, None) => run(&options),
            (Ask::Table, Some(two)) => {
                versions::times(two, repeats, picture, &sizes(largest), settings);
            }
            (Ask::Arch, _) => arch::times(repeats, picture, largest, settings),
            (Ask::Scalars, None) => scalars::times(repeats),
            (Ask::Scalars, Some(two)) => scalars::both(two, repeats),
            (Ask::Distances, two) => scalars::distances(two),
        }
        Ok(ExitCode::SUCCESS)
    })
}
