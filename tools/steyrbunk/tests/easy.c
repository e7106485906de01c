/* Every answer through steyrbunk_easy.h: workspaces, records and arches of the right length and one byte less, and what they
 * held before; the six verdicts with each, and through steyrbunk_verdict.h of each pixel. */
#include <stdio.h>
#include <stdlib.h>
#include <string.h>

#include "steyrbunk_verdict.h"

static int wrong = 0;

static void check(int holds, const char *what) {
    if (!holds) {
        printf("wrong: %s\n", what);
        wrong = 1;
    }
}

static uint8_t frame[49];

static int are(const size_t *verdicts, size_t not_above, size_t beaten, size_t too_few, size_t too_flat, size_t wrong, size_t kept) {
    const size_t expected[STEYRBUNK_VERDICTS] = {not_above, beaten, too_few, too_flat, wrong, kept};
    return memcmp(verdicts, expected, sizeof expected) == 0;
}

static int are_zero(const size_t *verdicts) {
    return are(verdicts, 0, 0, 0, 0, 0, 0);
}

/* The six between two numbers that must stay. */
static size_t told_six[STEYRBUNK_VERDICTS + 2], *const verdicts = told_six + 1;

/* The verdicts of all candidates, one by one, are the six; what is no candidate of the map has a verdict too. */
static void one_by_one(void *workspace, size_t bytes, size_t width, size_t height, const steyrbunk_settings *settings) {
    size_t counts[STEYRBUNK_VERDICTS] = {0}, border = steyrbunk_border(settings), total = 0;
    size_t w = steyrbunk_working_side(width, settings), h = steyrbunk_working_side(height, settings);
    float floor = steyrbunk_floor_in(workspace, bytes, width, height, settings);
    for (size_t y = border; y < h - border; y++)
        for (size_t x = border; x < w - border; x++) {
            uint32_t verdict = steyrbunk_verdict_in(workspace, bytes, width, height, settings, floor, x, y);
            check(verdict < STEYRBUNK_VERDICTS, "a verdict");
            counts[verdict % STEYRBUNK_VERDICTS]++;
        }
    check(memcmp(counts, verdicts, sizeof counts) == 0, "the verdicts one by one");
    for (size_t at = 0; at < STEYRBUNK_VERDICTS; at++) total += verdicts[at];
    check(total == (w - 2 * border) * (h - 2 * border), "all candidates");
    size_t far[4] = {0, w - 1, w, (size_t)-1};
    for (size_t at = 0; at < 4; at++)
        check(steyrbunk_verdict_in(workspace, bytes, width, height, settings, floor, far[at], h / 2) == STEYRBUNK_NOT_ABOVE
            || settings->nms_radius == 0, "a window that is not in the map");
    size_t less = steyrbunk_workspace(width, height, settings) - 1;
    check(steyrbunk_verdict_in(workspace, less, width, height, settings, floor, w / 2, h / 2) == STEYRBUNK_NOT_ABOVE, "no map");
}

/* Document 01's frame and settings, in a workspace of so many bytes more or less than it needs, filled with `fill`. */
static uint32_t find(steyrbunk_settings settings, size_t width, size_t height, size_t len, long more, int fill, size_t *count, float *list) {
    size_t bytes = steyrbunk_workspace(width, height, &settings) + (size_t)more;
    unsigned char *workspace = malloc(bytes + 1), *before = malloc(bytes + 1);
    memset(workspace, fill, bytes);
    memcpy(before, workspace, bytes);
    *count = 99;
    for (size_t at = 0; at < STEYRBUNK_VERDICTS + 2; at++) told_six[at] = 99;
    uint32_t answer = steyrbunk_corners_in(frame, len, width, height, &settings, workspace, bytes, list, 6, count, verdicts);
    if (answer > 1) {
        check(memcmp(workspace, before, bytes) == 0, "a refusal changed the workspace");
        check(*count == 0, "a refusal has a count");
        check(are_zero(verdicts), "a refusal has verdicts");
    } else {
        one_by_one(workspace, bytes, width, height, &settings);
        check(verdicts[STEYRBUNK_KEPT] == *count, "kept is the count");
    }
    check(told_six[0] == 99 && verdicts[STEYRBUNK_VERDICTS] == 99, "six are told, and no more");
    size_t counted = 99;
    check(steyrbunk_find_in(frame, len, width, height, &settings, workspace, bytes, list, 6, &counted) == answer, "without the six");
    check(counted == *count, "without the six, the count");
    free(workspace), free(before);
    return answer;
}

/* Images at twice the border are refused, and one pixel more is searched, at either factor; so the map's own entry, which takes
 * them, and the list's, which does not. */
static void small(const steyrbunk_settings *settings) {
    steyrbunk_settings one = *settings, two = one, none = one;
    float list[6] = {7, 7, 7, 7, 7, 7};
    size_t count = 99, w = 99, h = 99;
    two.image_upsample = 2, none.ray_radius = 0;
    check(steyrbunk_least_side(&one) == 7 && steyrbunk_least_side(&two) == 4 && steyrbunk_least_side(&none) == 7, "the least side");
    steyrbunk_settings usual = steyrbunk_defaults(), sites = steyrbunk_existing_sites();
    check(steyrbunk_least_side(&usual) == 12, "the least side for the defaults");
    check(steyrbunk_least_side(&sites) == 10, "the least side for the existing sites");
    check(find(one, 6, 7, 42, 0, 1, &count, list) == 15 && find(one, 7, 6, 42, 0, 1, &count, list) == 15, "15");
    check(find(none, 6, 6, 36, 0, 1, &count, list) == 15 && find(two, 3, 4, 12, 0, 1, &count, list) == 15, "15 of ray 0, at factor 2");
    check(find(one, 0, 0, 0, 0, 1, &count, list) == 15 && find(two, 0, 9, 0, 0, 1, &count, list) == 15, "15 of an image without pixels");
    check(find(one, 6, 7, 42, -1, 1, &count, list) == 15 && find(one, 7, 7, 49, -1, 1, &count, list) == 9, "15 before 9");
    check(list[0] == 7 && list[5] == 7, "15 leaves the list");
    two.threshold_rel = 1.5f;
    check(find(two, 3, 4, 12, 0, 1, &count, list) == 8, "8 before 15");
    two.threshold_rel = one.threshold_rel;
    check(find(two, 4, 4, 16, 0, 1, &count, list) <= 1, "one pixel more at factor 2");

    uint8_t working[42];
    uint32_t row[42], col[42], falling[42], rising[42];
    float response[42], scratch[42];
    check(steyrbunk_response(
        frame, 42, 6, 7, 1, 1, 0, working, 42, row, 42, col, 42, falling, 42, rising, 42, response, 42, scratch, 42, &w, &h) == 0
        && w == 6 && h == 7 && memcmp(working, frame, 42) == 0, "the map of an image that is too small for a list");
    verdicts[0] = verdicts[5] = 99;
    check(steyrbunk_detect_peaks(
        response, 42, working, 42, 6, 7, 1, 1, 0, STEYRBUNK_PARABOLIC, 0.28f, 1, 2, list, 6, &count, verdicts) == 15
        && count == 0 && are_zero(verdicts), "15 of the list's own entry");
    check(steyrbunk_response(
        NULL, 0, 0, 9, 1, 2, 0, NULL, 0, NULL, 0, NULL, 0, NULL, 0, NULL, 0, NULL, 0, NULL, 0, &w, &h) == 0
        && w == 0 && h == 18, "the map of no pixels");
}

/* Document 01's corner kept and read back, in buffers that end where they must: one byte or number less is refused. */
static void records(const steyrbunk_settings *settings) {
    float list[8] = {3, -0.0f, 160000, 1e-45f, 3.40282347e38f, -5, 0, 0};
    list[6] = list[7] = (float)(1e300 * 1e300); /* left over, and not finite */
    const uint8_t expected[25] = {1, 0, 0, 0, 20, 0, 7, 0, 14, 0, 0, 0, 1, 0x40, 0x40, 0, 0, 0x80, 0, 0, 0, 0x48, 0x1C, 0x40, 0};
    size_t bytes = STEYRBUNK_RECORD_BYTES(1), count = 99, w = 99, h = 99;
    uint8_t *record = malloc(bytes), *shorter = malloc(bytes - 1);
    memset(record, 0x5A, bytes), memset(shorter, 0x5A, bytes - 1);
    check(bytes == 25 && STEYRBUNK_RECORD_BYTES(0) == 13, "the bytes of a record");
    check(STEYRBUNK_RECORD_BYTES(STEYRBUNK_GREATEST_RECORD_CORNERS) == 100663309, "the bytes of the greatest");
    check(steyrbunk_keep(7, 14, settings, list, 1, shorter, bytes - 1) == 20 && shorter[0] == 0x5A, "20 of the writer");
    check(steyrbunk_keep(7, 14, settings, list, 0, record, 13) == 0 && record[12] == 0 && record[13] == 0x5A, "a record of none");
    check(steyrbunk_keep(7, 14, settings, list, 1, record, bytes) == 0 && memcmp(record, expected, bytes) == 0, "the record");
    check(steyrbunk_working_side(4096, settings) == 4096 && steyrbunk_working_side(4097, settings) == 0, "working sides");

    check(steyrbunk_kept(0) == 0 && steyrbunk_kept(12) == 0 && steyrbunk_kept(24) == 0 && steyrbunk_kept(25) == 1, "kept");
    check(steyrbunk_kept((size_t)-1) == STEYRBUNK_GREATEST_RECORD_CORNERS, "kept, at most");
    float *back = malloc(3 * sizeof(float));
    check(steyrbunk_read_record(record, bytes, back, 3 * steyrbunk_kept(bytes), &count, &w, &h) == 0, "read");
    check(count == 1 && w == 7 && h == 14 && memcmp(back, list, 3 * sizeof(float)) == 0, "as it was written");
    back[0] = 7;
    check(steyrbunk_read_record(record, bytes, back, 2, &count, &w, &h) == 20 && back[0] == 7, "20 of the reader");
    check(count == 0 && w == 0 && h == 0, "a refusal has no count and no sizes");
    check(steyrbunk_read_record(record, bytes - 1, back, 3, &count, &w, &h) == 16, "16");
    check(steyrbunk_read_record(NULL, 0, NULL, 0, &count, &w, &h) == 16, "16 of nothing");
    record[0] = 2, check(steyrbunk_read_record(record, bytes, back, 3, &count, &w, &h) == 17, "17"), record[0] = 1;
    record[12] = 2, check(steyrbunk_read_record(record, bytes, back, 3, &count, &w, &h) == 18, "18"), record[12] = 1;
    record[13] = 0x7F, record[14] = 0x80;
    check(steyrbunk_read_record(record, bytes, back, 3, &count, &w, &h) == 19 && back[0] == 7, "19 of the reader");

    /* Two whole corners and two numbers left over; none, and no list. */
    uint8_t two[STEYRBUNK_RECORD_BYTES(2)];
    check(steyrbunk_write_record(1, 2, list, 8, two, sizeof two, &count, &w, &h) == 0 && count == 2 && w == 1 && h == 2, "two");
    check(steyrbunk_write_record(1, 2, list + 1, 7, two, sizeof two, &count, &w, &h) == 19 && count == 0, "19 of the writer");
    check(steyrbunk_write_record(1, 2, NULL, 0, two, 13, &count, &w, &h) == 0 && count == 0 && w == 1, "no list");
    check(steyrbunk_write_record(1, 2, NULL, 0, NULL, 0, &count, &w, &h) == 20, "no output");
    check(steyrbunk_read_record(two, 13, NULL, 0, &count, &w, &h) == 0 && count == 0 && w == 1 && h == 2, "read into no list");
    free(record), free(shorter), free(back);
}

/* A camera that was refused has six zeros; document 01's frame has its one candidate, which is kept. */
static int told_is(const steyrbunk_camera *camera, size_t answer, size_t count, size_t side) {
    return camera->answer == answer && camera->count == count && camera->w == side && camera->h == side
        && are(camera->verdicts, 0, 0, 0, 0, 0, count);
}

/* Document 01's frame as the files of so many cameras, in memory that ends where they do. */
static uint8_t *files(size_t cameras) {
    static const uint8_t head[20] = {1, 0, 0, 0, 64, 0, 7, 0, 7, 1, 1, 0, 0, 1, 0, 2, 0x3E, 0x8F, 0x5C, 0x29};
    uint8_t *all = malloc(69 * cameras);
    for (size_t i = 0; i < cameras; i++) memcpy(all + 69 * i, head, 20), memcpy(all + 69 * i + 20, frame, 49);
    return all;
}

/* An arch over a workspace of so many bytes, in a list of one corner a camera and two numbers left over; what is beyond the
 * corners, and with `same` the whole list and workspace, must stay. */
static uint32_t arch(size_t cameras, const uint8_t *frames, size_t len, size_t bytes, float *list, int same, steyrbunk_camera *told) {
    unsigned char *workspace = malloc(bytes + 1), *before = malloc(bytes + 1);
    size_t numbers = 3 * cameras + 2;
    memset(workspace, 0x5A, bytes), memset(before, 0x5A, bytes), memset(told, 0x5A, 8 * sizeof *told);
    for (size_t at = 0; at < numbers; at++) list[at] = 7;
    uint32_t answer = steyrbunk_arch_in(cameras, frames, len, workspace, bytes, list, numbers, told);
    for (size_t at = same ? 0 : 3 * cameras; at < numbers; at++) check(list[at] == 7, "numbers left over");
    check(!same || memcmp(workspace, before, bytes) == 0, "a refused arch changed the workspace");
    free(workspace), free(before);
    return answer;
}

/* Document 01's saddle, which is in the middle of its one candidate, moved so far to the right; an edge; one pixel of another grey. */
static void moved(int right) {
    for (int at = 0; at < 49; at++) {
        int side = (at % 7 - 3 - right) * (at / 7 - 3);
        frame[at] = side > 0 ? 200 : side < 0 ? 0 : 100;
    }
}

static void edge(void) {
    for (int at = 0; at < 49; at++) frame[at] = at % 7 < 3 ? 0 : 200;
}

static void speck(void) {
    memset(frame, 100, 49), frame[4 * 7 + 4] = 101;
}

/* Each of the six, of a frame that has one candidate. */
static void each_verdict(const steyrbunk_settings *settings) {
    steyrbunk_settings usual = *settings, all = usual, none = usual, eight = usual, nine = usual;
    float list[6];
    size_t count;
    all.threshold_rel = 0, none.threshold_rel = 1, eight.min_cluster_size = 8, nine.min_cluster_size = 9;
    check(find(none, 7, 7, 49, 0, 1, &count, list) == 0 && are(verdicts, 1, 0, 0, 0, 0, 0), "not above the floor");
    check(find(eight, 7, 7, 49, 0, 1, &count, list) == 0 && are(verdicts, 0, 0, 0, 0, 0, 1), "enough positive neighbours");
    check(find(nine, 7, 7, 49, 0, 1, &count, list) == 0 && are(verdicts, 0, 0, 1, 0, 0, 0), "too few positive neighbours");
    moved(1);
    check(find(usual, 7, 7, 49, 0, 1, &count, list) == 0 && are(verdicts, 1, 0, 0, 0, 0, 0), "not above a greater one's floor");
    check(find(all, 7, 7, 49, 0, 1, &count, list) == 0 && are(verdicts, 0, 1, 0, 0, 0, 0), "beaten by a neighbour");
    edge();
    check(find(usual, 7, 7, 49, 0, 1, &count, list) == 0 && are(verdicts, 0, 0, 0, 0, 1, 0), "wrong curvature");
    speck();
    check(find(usual, 7, 7, 49, 0, 1, &count, list) == 0 && are(verdicts, 0, 0, 0, 1, 0, 0), "too flat");
    moved(0);
}

static void arches(void) {
    steyrbunk_camera told[STEYRBUNK_MOST_CAMERAS];
    float list[3 * 8 + 2];
    for (size_t pixels = 0; pixels < 300; pixels++) {
        size_t bytes = 24 * pixels + (pixels + 3) / 4 * 4;
        check(steyrbunk_entries(bytes) == pixels && (!pixels || steyrbunk_entries(bytes - 1) == pixels - 1), "entries");
    }
    for (size_t cameras = STEYRBUNK_FEWEST_CAMERAS; cameras <= STEYRBUNK_MOST_CAMERAS; cameras++) {
        size_t len = 69 * cameras, last = cameras - 1;
        uint8_t *frames = files(cameras);
        size_t bytes = steyrbunk_arch_workspace(frames, len);
        check(bytes == 24 * 49 + 52, "the workspace of an arch");
        check(arch(cameras, frames, len, bytes, list, 0, told) == 0, "an arch");
        for (size_t i = 0; i < STEYRBUNK_MOST_CAMERAS; i++) {
            check(i < cameras ? told_is(told + i, 0, 1, 7) : told_is(told + i, 11, 0, 0), "each camera");
            const float *share = steyrbunk_share(list, 3 * cameras + 2, cameras, i);
            check(i >= cameras || (share[0] == 3 && share[1] == 3 && share[2] == 160000), "each share");
        }
        check(arch(cameras, frames, len, bytes - 1, list, 1, told) == 0 && told_is(told, 9, 0, 0) && told_is(told + last, 9, 0, 0), "9");
        frames[0] = 2, frames[69 + 12] = 2;
        check(arch(cameras, frames, len, bytes, list, cameras == 2, told) == 0, "an arch with two refused");
        check(told_is(told, 12, 0, 0) && told_is(told + 1, 14, 0, 0) && (cameras == 2 || told_is(told + 2, 0, 1, 7)), "12 and 14");
        check(list[0] == 7 && list[3] == 7, "the shares of the refused");
        frames[0] = 1, frames[69 + 12] = 0;
        check(arch(cameras, frames, len - 1, bytes, list, 0, told) == 0 && told_is(told + last - 1, 0, 1, 7), "a cut arch");
        check(told_is(told + last, 13, 0, 0), "13");
        check(arch(cameras, frames, len - 69 + 4, bytes, list, 0, told) == 0 && told_is(told + last, 11, 0, 0), "11");
        memset(frames + 1, 0xFF, 4);
        check(steyrbunk_arch_workspace(frames, len) == 0, "the workspace of a frame that runs past the end");
        check(arch(cameras, frames, len, 0, list, 1, told) == 0 && told_is(told, 13, 0, 0) && told_is(told + 1, 11, 0, 0), "13 first");
        free(frames);
    }
    check(arch(2, NULL, 0, 0, list, 1, told) == 0 && told_is(told, 11, 0, 0) && told_is(told + 7, 11, 0, 0), "no frames");
    for (size_t i = 0; i < 5; i++) {
        static const size_t cameras[5] = {0, 1, 9, (size_t)-1, 2};
        size_t numbers = cameras[i] == 2 ? 5 : 26;
        memset(told, 0x5A, sizeof told);
        check(steyrbunk_arch_in(cameras[i], NULL, 0, NULL, 0, list, numbers, told) == 21, "21");
        for (size_t at = 0; at < STEYRBUNK_MOST_CAMERAS; at++) check(told_is(told + at, 21, 0, 0), "all are told 21");
    }
    uint8_t *cropped = files(3);
    cropped[69 + 13] = 2; /* the suppression radius of the second, so that its frame is too small */
    check(arch(3, cropped, 207, 24 * 49 + 52, list, 0, told) == 0 && told_is(told + 1, 15, 0, 0), "15 of a camera");
    check(told_is(told, 0, 1, 7) && told_is(told + 2, 0, 1, 7) && list[3] == 7, "15 stops nobody");
    free(cropped);
    uint8_t *sizes = files(1);
    sizes[6] = 8;
    check(steyrbunk_arch_workspace(sizes, 69) == 0, "the workspace of sizes that are refused");
    sizes[6] = 7, sizes[10] = 2;
    check(steyrbunk_arch_workspace(sizes, 69) == 25 * 196, "the workspace at factor 2");
    check(steyrbunk_arch_workspace(sizes, 68) == 0 && steyrbunk_arch_workspace(sizes, 4) == 0, "the workspace of a cut frame");
    free(sizes);
}

int main(void) {
    moved(0);
    steyrbunk_settings one = steyrbunk_defaults();
    check(one.ray_radius == 4 && one.image_upsample == 2 && one.response_blur_radius == 1 && one.peak_fit == 1, "defaults");
    check(one.threshold_rel == 0.28f && one.nms_radius == 6 && one.min_cluster_size == 2, "defaults");
    steyrbunk_settings sites = steyrbunk_existing_sites();
    check(sites.nms_radius == 4, "the existing sites");
    sites.nms_radius = one.nms_radius;
    check(memcmp(&sites, &one, sizeof one) == 0, "the existing sites, but for one setting");
    one.ray_radius = 1, one.image_upsample = 1, one.response_blur_radius = 0, one.peak_fit = STEYRBUNK_PARABOLIC, one.nms_radius = 1;
    check(steyrbunk_workspace(7, 7, &one) == 24 * 49 + 52, "the workspace of seven by seven");
    check(steyrbunk_workspace(0, 7, &one) == 0 && steyrbunk_workspace(4097, 1, &one) == 0, "no workspace");
    check(steyrbunk_workspace(4096, 2048, &one) == 25u * 8388608u && steyrbunk_workspace(4096, 2049, &one) == 0, "the largest");

    float list[6] = {0, 0, 0, 7, 7, 7};
    size_t count;
    for (int fill = 0; fill < 256; fill += 51) {
        check(find(one, 7, 7, 49, 0, fill, &count, list) == 0 && count == 1, "document 01's frame");
        check(list[0] == 3 && list[1] == 3 && list[2] == 160000 && list[3] == 7, "its corner");
        check(are(verdicts, 0, 0, 0, 0, 0, 1), "its one candidate");
    }
    each_verdict(&one);
    check(find(one, 7, 7, 49, 100, 1, &count, list) == 0, "a longer workspace");
    for (long less = 1; less <= 8; less++) check(find(one, 7, 7, 49, -less, 1, &count, list) == 9, "a shorter workspace");
    small(&one);
    check(find(one, 4097, 1, 4097, 0, 1, &count, list) == 2, "2");
    check(find(one, 7, 6, 49, 0, 1, &count, list) == 3, "3");
    check(find(one, 7, 7, 49, 0, 1, &count, list) == 0, "0");
    steyrbunk_settings other = one;
    other.ray_radius = 8, check(find(other, 7, 7, 49, 0, 1, &count, list) == 5, "5"), other = one;
    other.response_blur_radius = 4, check(find(other, 7, 7, 49, 0, 1, &count, list) == 6, "6"), other = one;
    other.nms_radius = 33, check(find(other, 7, 7, 49, 0, 1, &count, list) == 7, "7"), other = one;
    other.threshold_rel = 1.5f, check(find(other, 7, 7, 49, 0, 1, &count, list) == 8, "8"), other = one;
    other.peak_fit = 2, check(find(other, 7, 7, 49, 0, 1, &count, list) == 14, "14"), other = one;
    records(&one);
    arches();
    check(strcmp(steyrbunk_words(5), "the ray radius is over 7") == 0, "words");
    check(strcmp(steyrbunk_verdict_words(STEYRBUNK_TOO_FLAT), "too flat") == 0, "words of a verdict");
    check(strcmp(steyrbunk_verdict_words(6), steyrbunk_verdict_words(99)) == 0, "words of no verdict");
    check(strcmp(steyrbunk_words(99), steyrbunk_words(22)) == 0, "words of what is not known");
    check(strncmp(steyrbunk_words(15), "the frame is too small to judge: ", 33) == 0, "words of 15");
    if (!wrong) puts("all answers as they should be");
    return wrong;
}
