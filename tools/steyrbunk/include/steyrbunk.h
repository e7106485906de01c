/* steyrbunk.h: the proved Radon corner finder, as a static library (libsteyrbunk_c.a).
 *
 * steyrbunk_corners does everything; steyrbunk_response makes the map alone, and steyrbunk_detect_peaks
 * makes the list of a map. steyrbunk_run_arch does everything for all cameras of an arch, from their frame
 * files. steyrbunk_write_record makes a record of a list, bytes to be kept, and steyrbunk_read_record the
 * list of a record. They allocate nothing, keep nothing between calls, and may run at the same time on
 * different buffers. The caller lends every buffer. steyrbunk_sqrt and steyrbunk_ln are the root and the
 * logarithm that the finder takes. For the verdict on one pixel see steyrbunk_verdict.h: it is in an
 * archive of its own, and what is here needs this one alone.
 *
 * Names. A function that writes more than it did has a new name, and the old name is gone: a program that
 * was built for the old one does not link, where it would else be written through a pointer that it never
 * passed. Since version 0.4.0 of the tools six verdicts are told, and
 *   steyrbunk_find   is steyrbunk_corners, with verdicts as its last argument
 *   steyrbunk_peaks  is steyrbunk_detect_peaks, with verdicts as its last argument
 *   steyrbunk_arch   is steyrbunk_run_arch, and a steyrbunk_camera has verdicts as its last field
 *
 * Words used below
 *   factor       1 or 2: image_upsample, where 0 counts as 1, and 3 or more as 2
 *   W, H         working width and height: width and height times the factor
 *   border       ray_radius, where 0 counts as 1, + nms_radius + 1: nearer to an edge of the working image
 *                no corner is looked for
 *   candidate    a working pixel at least the border away from every edge: there are
 *                (W - 2*border) * (H - 2*border)
 *   floor        threshold_rel times the map's greatest value from 0 up, one float product
 *   window       of a pixel: the square of the map around it, nms_radius to each side
 *   entry        one element of a buffer; lengths are counted in entries, not in bytes
 *
 * Lent buffers. working, the four tables, response and blur_scratch need at least W*H entries each,
 * 25 bytes a working pixel together. What they held before changes nothing. With answers 0 and 1 the
 * first W*H entries of each are written, row after row (those of blur_scratch only if the blur radius
 * is not 0); entries beyond stay as they were. With every other answer no buffer changes.
 * No two buffers may overlap, and none may overlap the image, the frames or a record that is read. Where
 * a length is 0 its pointer is not read. Tables, response, scratch and list must be aligned to four bytes,
 * as malloc aligns them, and count, w, h, verdicts and told as a size_t is; image, frames, working and
 * records may lie anywhere. count, w, h, verdicts and told are written with every answer and must not be
 * null: a null one is written through, and the program is ended by the system or worse.
 *
 * Answers. The first that applies is given, in this order: 14, 2 to 8, 15, 9.
 *    0  accepted, all corners are in the list
 *    1  accepted, more corners than the list has room for: it holds the opening ones
 *    2  width or height is over STEYRBUNK_GREATEST_SIDE
 *    3  image_len is not width times height
 *    4  W*H is over STEYRBUNK_GREATEST_WORKING
 *    5  ray_radius is over STEYRBUNK_GREATEST_RAY_RADIUS
 *    6  response_blur_radius is over STEYRBUNK_GREATEST_BLUR_RADIUS
 *    7  nms_radius is over STEYRBUNK_GREATEST_NMS_RADIUS
 *    8  threshold_rel is NaN, below 0 or above 1
 *   15  W or H is at most twice the border, a side of 0 too: the frame is too small to judge. Look at the
 *       crop, the camera mode and the radii; an empty panel is another thing, answered 0 with a count of 0
 *    9  a lent buffer other than the list is too short
 *   14  peak_fit is above 1
 * A camera of an arch is answered by these and by 11 to 13, which come before 14; 13 comes first.
 *   11  the frame file has under 20 bytes, or under five are left for it, or none
 *   12  the frame file's version is not 1
 *   13  the frame file states a length that runs past the end of frames
 * The arch itself is answered 0 or
 *   21  the camera count is not 2 to 8, or the list has less than one corner a camera
 * Records are answered 0 or one of these, the lowest that applies:
 *   16  the record has under 13 bytes or not the length that it states
 *   17  the record's version is not 1
 *   18  the record's count and length disagree, or there are over STEYRBUNK_GREATEST_RECORD_CORNERS
 *       corners
 *   19  a number of the list is not finite
 *   20  the output is too short
 */
#ifndef STEYRBUNK_H
#define STEYRBUNK_H

#include <stddef.h>
#include <stdint.h>

#ifdef __cplusplus
extern "C" {
#endif

/* The greatest sizes and radii. */
#define STEYRBUNK_GREATEST_SIDE 4096u          /* of an image, in pixels */
#define STEYRBUNK_GREATEST_WORKING_SIDE 8192u  /* of a map */
#define STEYRBUNK_GREATEST_WORKING 8388608u    /* pixels of a map */
#define STEYRBUNK_GREATEST_RAY_RADIUS 7u       /* radii in working pixels */
#define STEYRBUNK_GREATEST_BLUR_RADIUS 3u
#define STEYRBUNK_GREATEST_NMS_RADIUS 32u
#define STEYRBUNK_GREATEST_RECORD_CORNERS 8388608u /* of a record */

/* Cameras of an arch. */
#define STEYRBUNK_FEWEST_CAMERAS 2u
#define STEYRBUNK_MOST_CAMERAS 8u

/* The default settings. The suppression radius is 6 since version 0.5.0 of the tools, and was 4. A program that depended on 4
 * names STEYRBUNK_EXISTING_SITES_NMS_RADIUS; otherwise it searches with 6 once it is compiled against this header. */
#define STEYRBUNK_RAY_RADIUS 4u
#define STEYRBUNK_IMAGE_UPSAMPLE 2u
#define STEYRBUNK_RESPONSE_BLUR_RADIUS 1u
#define STEYRBUNK_PEAK_FIT STEYRBUNK_GAUSSIAN
#define STEYRBUNK_THRESHOLD_REL 0.28f
#define STEYRBUNK_NMS_RADIUS 6u
#define STEYRBUNK_MIN_CLUSTER_SIZE 2u

/* The start-up settings of sites older than version 0.5.0 are the defaults but for this one. So are the published Rust's own. */
#define STEYRBUNK_EXISTING_SITES_NMS_RADIUS 4u

/* Values of peak_fit. */
#define STEYRBUNK_PARABOLIC 0u
#define STEYRBUNK_GAUSSIAN 1u

/* The verdicts on a candidate: the first rule that it fails, in the order in which they are tried, or that it is
 * kept. These are the places of the counts in verdicts, and the answers of steyrbunk_verdict, in steyrbunk_verdict.h.
 * With the answers 0 and 1 the six counts add up to all candidates, of which there is at least one; with a refusal
 * all six are 0. */
enum {
    STEYRBUNK_NOT_ABOVE = 0,       /* its value is not above the floor */
    STEYRBUNK_BEATEN = 1,          /* a value in its window is greater */
    STEYRBUNK_TOO_FEW = 2,         /* the positive values in its window, its own not counted, are under min_cluster_size */
    STEYRBUNK_TOO_FLAT = 3,        /* the saddle test on the working image: the spread of the curvatures times the
                                      squared ray radius is below 1, about a grey level; tested before the curvature */
    STEYRBUNK_WRONG_CURVATURE = 4, /* the same test: it bends, and not as a saddle does: an edge, a line, a spot */
    STEYRBUNK_KEPT = 5,            /* a corner: this count is that of the corners found, whether they fit or not */
    STEYRBUNK_VERDICTS = 6         /* how many there are */
};

/* Map and list of an image. Answers 0 to 9, 14 and 15. */
uint32_t steyrbunk_corners(
    const uint8_t *image, size_t image_len, /* pixels, 0 to 255, row after row; width times height of them */
    size_t width, size_t height,            /* of the image; W and H must be above twice the border (15) */
    uint32_t ray_radius,                    /* half length of the four rays in working pixels; 0 counts as 1 */
    uint32_t image_upsample,                /* the factor: 0 counts as 1, 3 or more as 2 */
    uint32_t response_blur_radius,          /* half size of the box that blurs the map; 0 leaves it sharp */
    uint32_t peak_fit,                      /* 0 parabolic, 1 Gaussian: how a place between pixels is fitted */
    float threshold_rel,                    /* 0.0 to 1.0: corners are stronger than this part of the map's maximum */
    uint32_t nms_radius,                    /* half size of the window that a corner is the greatest of, in working pixels */
    uint32_t min_cluster_size,              /* positive values that this window must hold beside the corner's own */
    uint8_t *working, size_t working_len,   /* gets the image at working resolution */
    uint32_t *row_cumsum, size_t row_cumsum_len,           /* gets running sums along rows, */
    uint32_t *col_cumsum, size_t col_cumsum_len,           /* columns, */
    uint32_t *diag_pos_cumsum, size_t diag_pos_cumsum_len, /* falling diagonals (from x-1, y-1), */
    uint32_t *diag_neg_cumsum, size_t diag_neg_cumsum_len, /* and rising ones (from x+1, y-1) */
    float *response, size_t response_len,                  /* gets the map, blurred if so asked */
    float *blur_scratch, size_t blur_scratch_len,          /* gets the map blurred along rows alone */
    float *list, size_t list_len, /* gets x, y and strength of each corner in row order; room for list_len / 3 corners.
                                     x and y are input pixels, whole numbers being middles of pixels; strength is the
                                     map's value. Numbers beyond the last corner stay as they were. */
    size_t *count,                /* gets the number of corners found, whether they fit or not; 0 with a refusal */
    size_t *w, size_t *h,         /* get W and H; 0 with a refusal */
    size_t verdicts[6]            /* gets how many candidates have each verdict; six zeros with a refusal */
);

/* The map alone. The arguments are those of steyrbunk_corners; what only the list uses is absent. A frame may be
 * too small for a list: it has a map, all zero where W or H is at most twice the ray radius, and 15 is not given.
 * Answers 0, 2, 3, 4, 5, 6 and 9. */
uint32_t steyrbunk_response(
    const uint8_t *image, size_t image_len,
    size_t width, size_t height,
    uint32_t ray_radius,
    uint32_t image_upsample,
    uint32_t response_blur_radius,
    uint8_t *working, size_t working_len,
    uint32_t *row_cumsum, size_t row_cumsum_len,
    uint32_t *col_cumsum, size_t col_cumsum_len,
    uint32_t *diag_pos_cumsum, size_t diag_pos_cumsum_len,
    uint32_t *diag_neg_cumsum, size_t diag_neg_cumsum_len,
    float *response, size_t response_len,
    float *blur_scratch, size_t blur_scratch_len,
    size_t *w, size_t *h
);

/* The list of a map, which is only read. Settings, list and verdicts are those of steyrbunk_corners.
 * Answers 0 and 1; 2 for w or h over STEYRBUNK_GREATEST_WORKING_SIDE; 4 for w*h over
 * STEYRBUNK_GREATEST_WORKING; 5 to 8; 15 for w or h at most twice the border; 9 for a response or an
 * image shorter than w*h; 14. The order is as above. */
uint32_t steyrbunk_detect_peaks(
    const float *response, size_t response_len, /* the map, as steyrbunk_response left it */
    const uint8_t *image, size_t image_len,     /* the working image that belongs to it */
    size_t w, size_t h,                         /* W and H of both */
    uint32_t ray_radius,
    uint32_t image_upsample,                    /* places are divided by the factor */
    uint32_t response_blur_radius,              /* not used, but refused where it is too great */
    uint32_t peak_fit,
    float threshold_rel,
    uint32_t nms_radius,
    uint32_t min_cluster_size,
    float *list, size_t list_len,
    size_t *count,
    size_t verdicts[6]
);

/* What a camera of an arch is told: as steyrbunk_corners tells its answer, count, W, H and verdicts. */
typedef struct {
    size_t answer, count, w, h;
    size_t verdicts[6];
} steyrbunk_camera;

/* All cameras of an arch, one after the other over the same buffers. Answers 0 and 21; with 21 every camera is
 * told 21, its count, sizes and verdicts are 0, and no buffer changes.
 *
 * A frame file is, big-endian: a byte 1 for the version; four bytes, how many bytes follow these; width and height,
 * two bytes each; ray_radius, image_upsample, response_blur_radius, peak_fit and nms_radius, a byte each;
 * min_cluster_size, two bytes; the bits of threshold_rel, four; the pixels.
 *
 * Camera i, counted from 0, is told and has in its share of the list what steyrbunk_corners would have told and left
 * with that share as its list. The share is the i-th run of list_len / 3 / cameras corners, both divisions rounded
 * down; what is left over at the end stays as it was. A refused camera stops nobody: the next frame begins after the
 * length that the refused one states. Where that runs past the end (13), or under five bytes are left (11), the
 * later cameras are told 11. Bytes behind the last frame are not read. Afterwards working, tables, response and
 * scratch hold what the last camera left that was not refused, and behind it what earlier ones did. */
uint32_t steyrbunk_run_arch(
    size_t cameras,                           /* 2 to 8 */
    const uint8_t *frames, size_t frames_len, /* the frame files end to end, that of camera 0 first */
    uint8_t *working, size_t working_len,     /* as for steyrbunk_corners; a camera for which one is too short is told 9 */
    uint32_t *row_cumsum, size_t row_cumsum_len,
    uint32_t *col_cumsum, size_t col_cumsum_len,
    uint32_t *diag_pos_cumsum, size_t diag_pos_cumsum_len,
    uint32_t *diag_neg_cumsum, size_t diag_neg_cumsum_len,
    float *response, size_t response_len,
    float *blur_scratch, size_t blur_scratch_len,
    float *list, size_t list_len, /* x, y and strength of each corner, a share for each camera */
    steyrbunk_camera told[8]      /* always eight, all written with every answer: one that no camera has reads 11 and zeros */
);

/* Records. A record keeps the corners of a frame and W and H, every number bit for bit, the sign of a
 * zero too. Big-endian: a byte 1 for the version; four bytes, how many bytes follow these; W and H, two
 * bytes each; four bytes, how many corners follow; x, y and strength of each, four bytes a number. There
 * is one record for a list and its sizes, and no other is read as these. */

/* Bytes of the record of so many corners. */
#define STEYRBUNK_RECORD_BYTES(count) ((size_t)13 + (size_t)12 * (size_t)(count))

/* The record of a list. Answers 0, 18, 19 and 20; with a refusal nothing is written to out. */
uint32_t steyrbunk_write_record(
    uint16_t w, uint16_t h,             /* W and H, as steyrbunk_corners told them */
    const float *list, size_t list_len, /* x, y and strength of each corner: list_len / 3 corners are written, so the length is
                                           three times the count. Numbers left over are not looked at. */
    uint8_t *out, size_t out_len,       /* gets the record, STEYRBUNK_RECORD_BYTES(list_len / 3) bytes; bytes beyond stay */
    size_t *count,                      /* gets the number of corners in the record; 0 with a refusal */
    size_t *ww, size_t *wh              /* get W and H; 0 with a refusal */
);

/* The list of a record. Answers 0 and 16 to 20; with a refusal nothing is written to list. */
uint32_t steyrbunk_read_record(
    const uint8_t *record, size_t record_len, /* the whole record and nothing behind it */
    float *list, size_t list_len,             /* gets x, y and strength of each corner; three numbers a corner are needed, and a
                                                 record that is taken has (record_len - 13) / 12 corners. Numbers beyond stay. */
    size_t *count,                            /* gets the number of corners; 0 with a refusal */
    size_t *w, size_t *h                      /* get W and H of the frame; 0 with a refusal */
);

/* The nearest float to the root of a finite number from +0 up; NaN of any other. */
float steyrbunk_sqrt(float x);

/* The logarithm of a number from 2^-6 to 2^24: within 2^-19 of document 01's L, whose sums go to n = 17
 * since document 02's fourth request. NaN of any other. */
float steyrbunk_ln(float x);

#ifdef __cplusplus
}
#endif

#endif
