//! The limits of documents 01 and 02, said once for all tools. The C header says them for C, and the wrapper's sentences name them;
//! tests hold these to what stands here, and write the document's numbers out where they try the library.

/// Input pixels along a side.
pub const SIDE: usize = 4_096;
/// The same after upsampling, by which the list's own entry goes.
pub const WORKING_SIDE: usize = 2 * SIDE;
/// Working pixels altogether.
pub const WORKING: usize = 8_388_608;
/// Radii in working pixels: of a ray, of the blur, of the window that a corner must win.
pub const RAY: u32 = 7;
pub const BLUR: u32 = 3;
pub const SUPPRESSION: u32 = 32;
/// Corners of a record.
pub const RECORD_CORNERS: usize = 8_388_608;
