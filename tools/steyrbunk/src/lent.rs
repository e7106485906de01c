//! Safe calls over buffers that the caller lends: the C interface with slices for pointers.

use crate::arch;
use crate::raw;
use crate::refusal::Refusal;
use crate::settings::Settings;
use crate::verdict::Verdicts;

/// Eight-bit pixels, row after row.
#[derive(Clone, Copy, Debug)]
pub struct Image<'a> {
    pub pixels: &'a [u8],
    pub width: usize,
    pub height: usize,
}

/// Every buffer but the list; each needs an entry a working pixel.
pub struct Buffers<'a> {
    pub working: &'a mut [u8],
    pub row_cumsum: &'a mut [u32],
    pub col_cumsum: &'a mut [u32],
    pub diag_pos_cumsum: &'a mut [u32],
    pub diag_neg_cumsum: &'a mut [u32],
    pub response: &'a mut [f32],
    pub blur_scratch: &'a mut [f32],
}

/// A response and the working image it belongs to.
#[derive(Clone, Copy, Debug)]
pub struct View<'a> {
    pub response: &'a [f32],
    pub working: &'a [u8],
    pub width: usize,
    pub height: usize,
}

/// The documents' number, the corners found, the working sizes, and how many candidates have each verdict; all but the number are 0
/// with a refusal, and the verdicts too where no list is made of a map.
#[derive(Clone, Copy, Debug, Default, PartialEq, Eq)]
pub struct Answer {
    pub number: u32,
    pub count: usize,
    pub width: usize,
    pub height: usize,
    pub verdicts: Verdicts,
}

impl Answer {
    /// All corners are in the list.
    pub const COMPLETE: u32 = 0;
    /// There are more corners than the list has room for.
    pub const LIST_FULL: u32 = 1;

    pub fn accepted(self) -> Result<Answer, Refusal> {
        match self.number {
            Answer::COMPLETE | Answer::LIST_FULL => Ok(self),
            number => Err(Refusal::from_number(number)),
        }
    }
}

/// What an arch is told: the call's own number, 0 or 21, and an answer for each of eight cameras. Those beyond the
/// camera count read 11, as a camera without a frame; with 21 all read 21.
#[derive(Clone, Copy, Debug, PartialEq, Eq)]
pub struct ArchAnswer {
    pub number: u32,
    pub cameras: [Answer; arch::MOST],
}

impl ArchAnswer {
    pub fn accepted(self) -> Result<[Answer; arch::MOST], Refusal> {
        match self.number {
            Answer::COMPLETE => Ok(self.cameras),
            number => Err(Refusal::from_number(number)),
        }
    }
}

/// What the numbers hold before a call: the library writes them with every answer, so this is never seen.
const UNWRITTEN: usize = usize::MAX;

/// An answer without verdicts before the library has told it.
const UNTOLD: Answer = Answer {
    number: 0,
    count: UNWRITTEN,
    width: UNWRITTEN,
    height: UNWRITTEN,
    verdicts: Verdicts::NONE,
};

/// An entry that takes the buffers; what else it takes stands before them and behind.
macro_rules! call {
    ($entry:ident, [$($before:expr),*], $lent:ident, [$($behind:expr),*]) => {
        // SAFETY: each pointer comes with the length of the slice it was taken from, the slices that
        // are written are borrowed exclusively, and the library touches nothing beyond them.
        unsafe {
            raw::$entry(
                $($before,)*
                $lent.working.as_mut_ptr(),
                $lent.working.len(),
                $lent.row_cumsum.as_mut_ptr(),
                $lent.row_cumsum.len(),
                $lent.col_cumsum.as_mut_ptr(),
                $lent.col_cumsum.len(),
                $lent.diag_pos_cumsum.as_mut_ptr(),
                $lent.diag_pos_cumsum.len(),
                $lent.diag_neg_cumsum.as_mut_ptr(),
                $lent.diag_neg_cumsum.len(),
                $lent.response.as_mut_ptr(),
                $lent.response.len(),
                $lent.blur_scratch.as_mut_ptr(),
                $lent.blur_scratch.len(),
                $($behind),*
            )
        }
    };
}

/// One that takes an image; the settings that only the list uses stand between it and the buffers.
macro_rules! image_call {
    ($entry:ident, $image:ident, $settings:ident, [$($between:expr),*], $lent:ident, [$($behind:expr),*]) => {
        call!(
            $entry,
            [
                $image.pixels.as_ptr(),
                $image.pixels.len(),
                $image.width,
                $image.height,
                $settings.ray_radius,
                $settings.image_upsample,
                $settings.response_blur_radius
                $(, $between)*
            ],
            $lent,
            [$($behind),*]
        )
    };
}

/// Map and list of an image; the list takes three numbers a corner.
pub fn find(image: Image, settings: &Settings, lent: Buffers, list: &mut [f32]) -> Answer {
    find_by(
        settings.peak_fit.number().into(),
        image,
        settings,
        lent,
        list,
    )
}

/// The same with the mode as a number, which may be one that is refused.
pub fn find_by(
    mode: u32,
    image: Image,
    settings: &Settings,
    lent: Buffers,
    list: &mut [f32],
) -> Answer {
    let (mut count, mut width, mut height) = (UNWRITTEN, UNWRITTEN, UNWRITTEN);
    let mut verdicts = [UNWRITTEN; 6];
    let number = image_call!(
        steyrbunk_corners,
        image,
        settings,
        [
            mode,
            settings.threshold_rel,
            settings.nms_radius,
            settings.min_cluster_size
        ],
        lent,
        [
            list.as_mut_ptr(),
            list.len(),
            &mut count,
            &mut width,
            &mut height,
            verdicts.as_mut_ptr()
        ]
    );
    Answer {
        number,
        count,
        width,
        height,
        verdicts: verdicts.into(),
    }
}

/// All cameras of an arch: `frames` has their frame files end to end, and each camera has its share of the list
/// ([`arch::share`]).
pub fn arch(cameras: usize, frames: &[u8], lent: Buffers, list: &mut [f32]) -> ArchAnswer {
    let mut told = [raw::Camera {
        answer: UNWRITTEN,
        count: UNWRITTEN,
        w: UNWRITTEN,
        h: UNWRITTEN,
        verdicts: [UNWRITTEN; 6],
    }; arch::MOST];
    let number = call!(
        steyrbunk_run_arch,
        [cameras, frames.as_ptr(), frames.len()],
        lent,
        [list.as_mut_ptr(), list.len(), told.as_mut_ptr()]
    );
    ArchAnswer {
        number,
        cameras: told.map(|camera| Answer {
            number: camera.answer.try_into().unwrap_or(u32::MAX),
            count: camera.count,
            width: camera.w,
            height: camera.h,
            verdicts: camera.verdicts.into(),
        }),
    }
}

/// The map of an image, which may be too small for a list; of the settings only the first three are looked at.
pub fn response(image: Image, settings: &Settings, lent: Buffers) -> Answer {
    let (mut width, mut height) = (UNWRITTEN, UNWRITTEN);
    let number = image_call!(
        steyrbunk_response,
        image,
        settings,
        [],
        lent,
        [&mut width, &mut height]
    );
    Answer {
        number,
        width,
        height,
        ..Answer::default()
    }
}

/// The list of a map; the answer's sizes are 0.
pub fn peaks(view: View, settings: &Settings, list: &mut [f32]) -> Answer {
    let mut answer = Answer {
        count: UNWRITTEN,
        ..Answer::default()
    };
    let mut verdicts = [UNWRITTEN; 6];
    // SAFETY: as above.
    answer.number = unsafe {
        raw::steyrbunk_detect_peaks(
            view.response.as_ptr(),
            view.response.len(),
            view.working.as_ptr(),
            view.working.len(),
            view.width,
            view.height,
            settings.ray_radius,
            settings.image_upsample,
            settings.response_blur_radius,
            settings.peak_fit.number().into(),
            settings.threshold_rel,
            settings.nms_radius,
            settings.min_cluster_size,
            list.as_mut_ptr(),
            list.len(),
            &mut answer.count,
            verdicts.as_mut_ptr(),
        )
    };
    answer.verdicts = verdicts.into();
    answer
}

/// The number of the verdict on one working pixel, by a floor that is the threshold times the map's greatest value from 0 up.
/// [`Candidates`](crate::Candidates) takes that floor once for all of a map.
pub fn verdict(view: View, settings: &Settings, floor: f32, x: usize, y: usize) -> u32 {
    // SAFETY: as above.
    unsafe {
        raw::steyrbunk_verdict(
            view.response.as_ptr(),
            view.response.len(),
            view.working.as_ptr(),
            view.working.len(),
            view.width,
            view.height,
            settings.ray_radius,
            settings.nms_radius,
            settings.min_cluster_size,
            floor,
            x,
            y,
        )
    }
}

/// The record of a list, cut to whole corners, at the beginning of `out`; the sizes are the working image's.
pub fn write_record(width: u16, height: u16, list: &[f32], out: &mut [u8]) -> Answer {
    let mut answer = UNTOLD;
    // SAFETY: as above.
    answer.number = unsafe {
        raw::steyrbunk_write_record(
            width,
            height,
            list.as_ptr(),
            list.len(),
            out.as_mut_ptr(),
            out.len(),
            &mut answer.count,
            &mut answer.width,
            &mut answer.height,
        )
    };
    answer
}

/// The list of a record at the beginning of `list`.
pub fn read_record(record: &[u8], list: &mut [f32]) -> Answer {
    let mut answer = UNTOLD;
    // SAFETY: as above.
    answer.number = unsafe {
        raw::steyrbunk_read_record(
            record.as_ptr(),
            record.len(),
            list.as_mut_ptr(),
            list.len(),
            &mut answer.count,
            &mut answer.width,
            &mut answer.height,
        )
    };
    answer
}
