/* steyrbunk_easy.h: the finder of steyrbunk.h with one workspace in place of seven buffers, settings as a
 * struct, and words for the answers. Everything here is inline C over the library; link libsteyrbunk_c.a.
 *
 *     steyrbunk_settings settings = steyrbunk_defaults();  // or steyrbunk_existing_sites(), with a suppression radius of 4
 *     size_t bytes = steyrbunk_workspace(width, height, &settings);
 *     void *workspace = malloc(bytes);
 *     float list[3 * 1024];
 *     size_t count, verdicts[STEYRBUNK_VERDICTS];
 *     uint32_t answer = steyrbunk_corners_in(image, image_len, width, height, &settings,
 *                                            workspace, bytes, list, 3 * 1024, &count, verdicts);
 *     if (answer > 1) fprintf(stderr, "refused %u: %s\n", answer, steyrbunk_words(answer));
 *     for (size_t i = 0; i < STEYRBUNK_VERDICTS; i++) printf("%zu %s\n", verdicts[i], steyrbunk_verdict_words(i));
 *
 * and, where the answer was 0, to keep what was found and to read it back:
 *
 *     uint8_t *record = malloc(STEYRBUNK_RECORD_BYTES(count));
 *     answer = steyrbunk_keep(width, height, &settings, list, count, record, STEYRBUNK_RECORD_BYTES(count));
 *
 *     float *kept = malloc(steyrbunk_kept(record_len) * 3 * sizeof(float));
 *     answer = steyrbunk_read_record(record, record_len, kept, 3 * steyrbunk_kept(record_len), &count, &w, &h);
 *
 * and for all cameras of an arch, whose frame files stand end to end:
 *
 *     size_t bytes = steyrbunk_arch_workspace(frames, frames_len);
 *     void *workspace = malloc(bytes);
 *     steyrbunk_camera told[STEYRBUNK_MOST_CAMERAS];
 *     uint32_t answer = steyrbunk_arch_in(cameras, frames, frames_len, workspace, bytes, list, 3 * 8192, told);
 *     for (size_t i = 0; answer == 0 && i < cameras; i++)
 *         if (told[i].answer > 1) fprintf(stderr, "camera %zu: %s\n", i, steyrbunk_words((uint32_t)told[i].answer));
 *         else use(steyrbunk_share(list, 3 * 8192, cameras, i), told[i].count);
 */
#ifndef STEYRBUNK_EASY_H
#define STEYRBUNK_EASY_H

#include "steyrbunk.h"

/* The settings of a call; steyrbunk.h says what each means. */
typedef struct {
    uint32_t ray_radius;
    uint32_t image_upsample;
    uint32_t response_blur_radius;
    uint32_t peak_fit;
    float threshold_rel;
    uint32_t nms_radius;
    uint32_t min_cluster_size;
} steyrbunk_settings;

static inline steyrbunk_settings steyrbunk_defaults(void) {
    steyrbunk_settings settings = {
        STEYRBUNK_RAY_RADIUS, STEYRBUNK_IMAGE_UPSAMPLE, STEYRBUNK_RESPONSE_BLUR_RADIUS, STEYRBUNK_PEAK_FIT,
        STEYRBUNK_THRESHOLD_REL, STEYRBUNK_NMS_RADIUS, STEYRBUNK_MIN_CLUSTER_SIZE,
    };
    return settings;
}

/* What sites older than version 0.5.0 start up with: as the defaults, but a suppression radius of 4. */
static inline steyrbunk_settings steyrbunk_existing_sites(void) {
    steyrbunk_settings settings = steyrbunk_defaults();
    settings.nms_radius = STEYRBUNK_EXISTING_SITES_NMS_RADIUS;
    return settings;
}

/* The working side of an image's side, or 0 where it is refused. */
static inline uint16_t steyrbunk_working_side(size_t side, const steyrbunk_settings *settings) {
    size_t factor = settings->image_upsample < 2 ? 1 : 2;
    return side > STEYRBUNK_GREATEST_SIDE ? 0 : (uint16_t)(factor * side);
}

/* Working pixels of an image, or 0 where the sizes are refused. */
static inline size_t steyrbunk_working_pixels(size_t width, size_t height, const steyrbunk_settings *settings) {
    size_t pixels = (size_t)steyrbunk_working_side(width, settings) * steyrbunk_working_side(height, settings);
    return pixels > STEYRBUNK_GREATEST_WORKING ? 0 : pixels;
}

/* Working pixels about the edge that are no candidates. */
static inline size_t steyrbunk_border(const steyrbunk_settings *settings) {
    size_t ray = settings->ray_radius == 0 ? 1 : settings->ray_radius;
    return ray + settings->nms_radius + 1;
}

/* Input pixels that either side of an image has at least: one that has less is refused, 15. */
static inline size_t steyrbunk_least_side(const steyrbunk_settings *settings) {
    size_t border = steyrbunk_border(settings);
    return (settings->image_upsample < 2 ? 2 * border : border) + 1;
}

/* Bytes that a workspace needs for an image of these sides: 25 a working pixel, the working image's rounded
 * up to whole words; 0 where there is no pixel or the sizes are refused as too great. */
static inline size_t steyrbunk_workspace(size_t width, size_t height, const steyrbunk_settings *settings) {
    size_t pixels = steyrbunk_working_pixels(width, height, settings);
    return 24 * pixels + (pixels + 3) / 4 * 4;
}

/* A workspace as seven buffers of so many entries each. */
typedef struct {
    uint32_t *row, *col, *falling, *rising;
    float *response, *scratch;
    uint8_t *working;
} steyrbunk_parts;

static inline steyrbunk_parts steyrbunk_apart(void *workspace, size_t entries) {
    uint32_t *words = (uint32_t *)workspace;
    steyrbunk_parts parts = {words, words, words, words, (float *)words, (float *)words, (uint8_t *)words};
    if (entries != 0) { /* no steps from a workspace that may be null */
        parts.col = parts.row + entries;
        parts.falling = parts.col + entries;
        parts.rising = parts.falling + entries;
        parts.response = (float *)(parts.rising + entries);
        parts.scratch = parts.response + entries;
        parts.working = (uint8_t *)(parts.scratch + entries);
    }
    return parts;
}

/* Entries of each buffer that an image needs; none where the workspace is too short for them. */
static inline size_t steyrbunk_lent(
    size_t workspace_len, size_t width, size_t height, const steyrbunk_settings *settings) {
    size_t bytes = steyrbunk_workspace(width, height, settings);
    return workspace_len < bytes ? 0 : steyrbunk_working_pixels(width, height, settings);
}

/* Map and list of an image. The arguments are those of steyrbunk_corners, but for the workspace, which must be
 * aligned as malloc aligns, or at least to four bytes. What it held before changes nothing; with an answer
 * above 1 it is as it was. A workspace that is too short: 9, by the same order as the other answers.
 * list_len counts floats, three a corner. */
static inline uint32_t steyrbunk_corners_in(
    const uint8_t *image, size_t image_len, size_t width, size_t height, const steyrbunk_settings *settings,
    void *workspace, size_t workspace_len, float *list, size_t list_len, size_t *count, size_t verdicts[6]) {
    /* Where it is too short no buffer is lent, and the answer is the library's. */
    size_t entries = steyrbunk_lent(workspace_len, width, height, settings);
    steyrbunk_parts in = steyrbunk_apart(workspace, entries);
    size_t w, h;
    return steyrbunk_corners(
        image, image_len, width, height, settings->ray_radius, settings->image_upsample,
        settings->response_blur_radius, settings->peak_fit, settings->threshold_rel, settings->nms_radius,
        settings->min_cluster_size, in.working, entries, in.row, entries, in.col, entries, in.falling, entries,
        in.rising, entries, in.response, entries, in.scratch, entries, list, list_len, count, &w, &h, verdicts);
}

/* The same without the verdicts, as before there were any. */
static inline uint32_t steyrbunk_find_in(
    const uint8_t *image, size_t image_len, size_t width, size_t height, const steyrbunk_settings *settings,
    void *workspace, size_t workspace_len, float *list, size_t list_len, size_t *count) {
    size_t verdicts[STEYRBUNK_VERDICTS];
    return steyrbunk_corners_in(
        image, image_len, width, height, settings, workspace, workspace_len, list, list_len, count, verdicts);
}

/* A number of a frame file, the highest of its bytes first. */
static inline size_t steyrbunk_number(const uint8_t *at, size_t bytes) {
    size_t number = 0;
    for (size_t i = 0; i < bytes; i++) number = 256 * number + at[i];
    return number;
}

/* Bytes that a workspace needs for every frame of an arch: those of the greatest; a frame that is refused for
 * its sizes needs none. */
static inline size_t steyrbunk_arch_workspace(const uint8_t *frames, size_t frames_len) {
    size_t most = 0;
    for (size_t i = 0; i < STEYRBUNK_MOST_CAMERAS && frames_len >= 5; i++) {
        size_t length = steyrbunk_number(frames + 1, 4);
        if (length > frames_len - 5) break;
        if (length >= 15) {
            steyrbunk_settings settings = steyrbunk_defaults();
            size_t width = steyrbunk_number(frames + 5, 2), height = steyrbunk_number(frames + 7, 2);
            settings.image_upsample = frames[10];
            size_t bytes = width * height == length - 15 ? steyrbunk_workspace(width, height, &settings) : 0;
            most = bytes > most ? bytes : most;
        }
        frames += 5 + length, frames_len -= 5 + length;
    }
    return most;
}

/* Entries that each buffer of a workspace can have: four take 100 bytes, and the first of fewer takes a word of
 * the working image. */
static inline size_t steyrbunk_entries(size_t workspace_len) {
    size_t rest = workspace_len % 100;
    return workspace_len / 100 * 4 + (rest < 4 ? 0 : (rest - 4) / 24);
}

/* All cameras of an arch. The arguments are those of steyrbunk_run_arch, but for the workspace, which is aligned as
 * for steyrbunk_corners_in: a camera for which it is too short is told 9 and stops nobody. */
static inline uint32_t steyrbunk_arch_in(
    size_t cameras, const uint8_t *frames, size_t frames_len, void *workspace, size_t workspace_len,
    float *list, size_t list_len, steyrbunk_camera told[8]) {
    size_t n = steyrbunk_entries(workspace_len);
    steyrbunk_parts in = steyrbunk_apart(workspace, n);
    return steyrbunk_run_arch(
        cameras, frames, frames_len, in.working, n, in.row, n, in.col, n, in.falling, n, in.rising, n,
        in.response, n, in.scratch, n, list, list_len, told);
}

/* Where camera i, counted from 0, has its corners in the list of an arch that was answered 0. */
static inline const float *steyrbunk_share(const float *list, size_t list_len, size_t cameras, size_t i) {
    return list + i * (list_len / 3 / cameras * 3);
}

/* The record of the corners that steyrbunk_corners_in listed for an image of these sides, with answer 0: after answer 1 the list
 * holds fewer than count. out needs STEYRBUNK_RECORD_BYTES(count) bytes. Answers 0, 18, 19 and 20, as steyrbunk_write_record. */
static inline uint32_t steyrbunk_keep(
    size_t width, size_t height, const steyrbunk_settings *settings, const float *list, size_t count,
    uint8_t *out, size_t out_len) {
    size_t written, w, h;
    return steyrbunk_write_record(
        steyrbunk_working_side(width, settings), steyrbunk_working_side(height, settings), list, 3 * count,
        out, out_len, &written, &w, &h);
}

/* Corners of a record of so many bytes, if it is taken: the list for it needs three floats each. */
static inline size_t steyrbunk_kept(size_t record_len) {
    size_t corners = record_len < STEYRBUNK_RECORD_BYTES(0) ? 0 : (record_len - STEYRBUNK_RECORD_BYTES(0)) / 12;
    return corners > STEYRBUNK_GREATEST_RECORD_CORNERS ? STEYRBUNK_GREATEST_RECORD_CORNERS : corners;
}

/* What an answer means. */
static inline const char *steyrbunk_words(uint32_t answer) {
    switch (answer) {
    case 0: return "accepted, all corners are in the list";
    case 1: return "accepted, more corners than the list has room for";
    case 2: return "width or height is over 4,096 pixels";
    case 3: return "the number of pixels is not width times height";
    case 4: return "there are over 8,388,608 working pixels";
    case 5: return "the ray radius is over 7";
    case 6: return "the blur radius is over 3";
    case 7: return "the suppression radius is over 32";
    case 8: return "the threshold is not a number from 0 to 1";
    case 9: return "a lent buffer is too short";
    case 11: return "the frame file has under 20 bytes";
    case 12: return "the frame file's version is not 1";
    case 13: return "the frame file does not have the length that it states";
    case 14: return "the mode is neither 0 (parabolic) nor 1 (Gaussian)";
    case 15: return "the frame is too small to judge: its working width or height is at most twice (ray + suppression + 1); look at the crop, the camera mode and the radii, not at the panel";
    case 16: return "the record has under 13 bytes or not the length that it states";
    case 17: return "the record's version is not 1";
    case 18: return "the record's count and length disagree, or there are over 8,388,608 corners";
    case 19: return "a number of the list is not finite";
    case 20: return "the output is too short";
    case 21: return "the camera count is not 2 to 8, or the list has less than one corner a camera";
    default: return "an answer that this header does not know";
    }
}

/* What a verdict means. */
static inline const char *steyrbunk_verdict_words(size_t verdict) {
    switch (verdict) {
    case STEYRBUNK_NOT_ABOVE: return "not above the floor";
    case STEYRBUNK_BEATEN: return "beaten by a neighbour";
    case STEYRBUNK_TOO_FEW: return "too few positive neighbours";
    case STEYRBUNK_TOO_FLAT: return "too flat";
    case STEYRBUNK_WRONG_CURVATURE: return "wrong curvature";
    case STEYRBUNK_KEPT: return "kept";
    default: return "a verdict that this header does not know";
    }
}

#endif
