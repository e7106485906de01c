//! A build of the library that is loaded while the program runs, so that two of them can be timed side by side.

use std::ffi::{c_char, c_int, c_void, CStr, CString};

/// A C function: what it reads, the buffers it is lent, each with its length, what it tells, and its answer.
macro_rules! function {
    ($($read:ty),*; $($buffer:ty),*; $($told:ty),*; $answer:ty) => {
        unsafe extern "C" fn($($read,)* $(*mut $buffer, usize,)* $($told),*) -> $answer
    };
}

/// The same function with the six counts told behind the rest, and without them.
macro_rules! call {
    ($($read:ty),*; $($buffer:ty),*; $($told:ty),*; $answer:ty) => {
        Call<
            function!($($read),*; $($buffer),*; $($told,)* *mut usize; $answer),
            function!($($read),*; $($buffer),*; $($told),*; $answer),
        >
    };
}

/// A function that tells the six counts since document 02's sixth request, under a name of its own; or, in a library from before
/// that, the function that it was.
#[derive(Clone, Copy)]
pub enum Call<Six, Without> {
    Six(Six),
    Without(Without),
}

pub type Columns = function!(*const u8, usize, usize, usize; u32; ; ());
pub type Rays = function!(*const u8, usize, usize, usize, usize; u32, u32, u32, u32, f32; ; ());
pub type Response = function!(*const u8, usize, usize, usize, u32, u32, u32;
    u8, u32, u32, u32, u32, f32, f32; *mut usize, *mut usize; u32);
pub type Find = call!(*const u8, usize, usize, usize, u32, u32, u32, u32, f32, u32, u32;
    u8, u32, u32, u32, u32, f32, f32, f32; *mut usize, *mut usize, *mut usize; u32);
pub type Peaks = call!(*const f32, usize, *const u8, usize, usize, usize, u32, u32, u32, u32, f32, u32, u32;
    f32; *mut usize; u32);
pub type Log = function!(f32; ; ; f32);

/// What `tools/version` builds, or the part of it that is timed.
pub struct Library {
    pub columns: Columns,
    pub rays: Rays,
    pub response: Response,
    pub peaks: Peaks,
    pub find: Find,
    log: Log,
}

extern "C" {
    fn dlopen(path: *const c_char, flags: c_int) -> *mut c_void;
    fn dlsym(library: *mut c_void, name: *const c_char) -> *mut c_void;
    fn dlerror() -> *const c_char;
}

/// Everything is looked up at once, and no other library sees it.
const NOW: c_int = 2;

/// What the last call that failed says.
fn said() -> String {
    // SAFETY: the text is there until the next call, and copied before that.
    let text = unsafe { dlerror() };
    if text.is_null() {
        return "no reason given".to_string();
    }
    let text = unsafe { CStr::from_ptr(text) };
    text.to_string_lossy().into_owned()
}

impl Library {
    /// Stays open for as long as the program runs.
    pub fn open(path: &str) -> Result<Library, String> {
        // A name without a slash would be looked for among the system's libraries.
        let whole = std::fs::canonicalize(path).map_err(|error| format!("{path}: {error}"))?;
        let whole = CString::new(whole.as_os_str().as_encoded_bytes()).expect("no zero in a path");
        // SAFETY: a C string, and a library that runs nothing when it is loaded.
        let library = unsafe { dlopen(whole.as_ptr(), NOW) };
        if library.is_null() {
            return Err(said());
        }
        let place = |name: &CStr| {
            let place = unsafe { dlsym(library, name.as_ptr()) };
            (!place.is_null()).then_some(place).ok_or_else(said)
        };
        // The name with the six counts is looked up first.
        macro_rules! either {
            ($six:expr, $without:expr) => {
                match place($six) {
                    Ok(six) => Call::Six(transmute::<*mut c_void, _>(six)),
                    Err(_) => Call::Without(transmute::<*mut c_void, _>(place($without)?)),
                }
            };
        }
        // SAFETY: the functions of these names have these types, in every revision that is timed.
        unsafe {
            use std::mem::transmute;
            Ok(Library {
                columns: transmute::<*mut c_void, Columns>(place(c"pass_columns")?),
                rays: transmute::<*mut c_void, Rays>(place(c"pass_rays")?),
                response: transmute::<*mut c_void, Response>(place(c"steyrbunk_response")?),
                peaks: either!(c"steyrbunk_detect_peaks", c"steyrbunk_peaks"),
                find: either!(c"steyrbunk_corners", c"steyrbunk_find"),
                log: transmute::<*mut c_void, Log>(place(c"steyrbunk_ln")?),
            })
        }
    }

    /// Whether its calls tell the six counts.
    pub fn tells_six(&self) -> bool {
        matches!(self.find, Call::Six(_))
    }

    pub fn ln(&self, x: f32) -> f32 {
        // SAFETY: a number in, a number out.
        unsafe { (self.log)(x) }
    }
}
