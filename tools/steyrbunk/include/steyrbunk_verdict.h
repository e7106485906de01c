/* steyrbunk_verdict.h: the verdict on one pixel of a map, for drawings: why it is no corner, or that it is one.
 *
 * steyrbunk_verdict is in an archive of its own, libsteyrbunk_verdict.a. Link it beside libsteyrbunk_c.a, which has the
 * finder; who only finds corners, or counts the verdicts, needs neither this header nor this archive. In one archive
 * with the finder it would be a second caller of the rules: they would not be compiled into the finder's scan, and the
 * list would take longer.
 *
 * After steyrbunk_corners_in, with an answer of 0 or 1, x and y from steyrbunk_border(&settings) on:
 *
 *     float floor = steyrbunk_floor_in(workspace, bytes, width, height, &settings);
 *     uint32_t verdict = steyrbunk_verdict_in(workspace, bytes, width, height, &settings, floor, x, y);
 */
#ifndef STEYRBUNK_VERDICT_H
#define STEYRBUNK_VERDICT_H

#include "steyrbunk_easy.h"

#ifdef __cplusplus
extern "C" {
#endif

/* STEYRBUNK_NOT_ABOVE to STEYRBUNK_KEPT, by the rules and the order by which the candidates are counted: over all
 * candidates of a map these verdicts are the counts. It takes any numbers: where the window does not lie in the map the
 * answer is STEYRBUNK_NOT_ABOVE, and where the disk of the saddle test does not lie in the image STEYRBUNK_TOO_FLAT, if
 * the other rules pass it. The words are those of steyrbunk.h. */
uint32_t steyrbunk_verdict(
    const float *response, size_t response_len, /* the map, */
    const uint8_t *image, size_t image_len,     /* the working image that belongs to it, */
    size_t w, size_t h,                         /* W and H of both */
    uint32_t ray_radius,
    uint32_t nms_radius,
    uint32_t min_cluster_size,
    float floor,                                /* taken once for a map, by steyrbunk_floor */
    size_t x, size_t y                          /* the pixel's column and row, from 0 */
);

#ifdef __cplusplus
}
#endif

/* The floor of a map: what a candidate's value must be above. */
static inline float steyrbunk_floor(const float *response, size_t pixels, float threshold_rel) {
    float greatest = 0;
    for (size_t at = 0; at < pixels; at++) greatest = greatest < response[at] ? response[at] : greatest;
    return threshold_rel * greatest;
}

/* The same of the map that steyrbunk_corners_in left in a workspace, with an answer of 0 or 1. */
static inline float steyrbunk_floor_in(
    void *workspace, size_t workspace_len, size_t width, size_t height, const steyrbunk_settings *settings) {
    size_t entries = steyrbunk_lent(workspace_len, width, height, settings);
    return steyrbunk_floor(steyrbunk_apart(workspace, entries).response, entries, settings->threshold_rel);
}

/* The verdict on a pixel of that map, in working pixels, with its floor. */
static inline uint32_t steyrbunk_verdict_in(
    void *workspace, size_t workspace_len, size_t width, size_t height, const steyrbunk_settings *settings,
    float floor, size_t x, size_t y) {
    size_t entries = steyrbunk_lent(workspace_len, width, height, settings);
    steyrbunk_parts in = steyrbunk_apart(workspace, entries);
    return steyrbunk_verdict(
        in.response, entries, in.working, entries, steyrbunk_working_side(width, settings),
        steyrbunk_working_side(height, settings), settings->ray_radius, settings->nms_radius,
        settings->min_cluster_size, floor, x, y);
}

#endif
