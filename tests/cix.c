/* Calls every function of cix.h: on no bytes at all, with lengths that are not true, through the
 * specification's bench cases, for ranks, from the pit, for tags of all buildings, where all zones are laid out
 * afresh, and with the coarse step. */
#include "cix.h"
#include <stdio.h>
#include <stdlib.h>
#include <string.h>

static int failed, checked;

static void check(const char *what, uint64_t got, uint64_t want, int line) {
    checked++;
    if (got != want) {
        failed++;
        printf("cix.c:%d: %s: %llu:%llu, not %llu:%llu\n", line, what,
               (unsigned long long)(got >> 32), (unsigned long long)(uint32_t)got,
               (unsigned long long)(want >> 32), (unsigned long long)(uint32_t)want);
    }
}

#define IS(call, kind, number) check(#call, call, ((uint64_t)(kind) << 32) + (number), __LINE__)
#define DONE(call, number) IS(call, CIX_DONE, number)
#define CUT(call, number) IS(call, CIX_CUT, number)
#define REFUSED(call, number) IS(call, CIX_REFUSED, number)

enum { PAGES = 2, ENTRIES = 28 };
static uint8_t image[CIX_IMAGE_BYTES(ENTRIES, PAGES)], space[CIX_SPACE_BYTES(PAGES)];
#define IMAGE image, sizeof image
#define SPACE space, sizeof space

/* The cell of a tag's block, from where its records lie. */
static size_t cell(uint32_t tag) {
    return (CIX_PLACE(cix_show_space(SPACE, tag)) - 1664) / 8 - 1;
}

static void no_bytes(void) {
    REFUSED(cix_format(NULL, 0, 1, 1, CIX_STEP_FINE, CIX_ALL), CIX_SIZES);
    REFUSED(cix_begin(NULL, 0, NULL, 0), CIX_BAD_HEAD);
    REFUSED(cix_put(NULL, 0, 7, 1, 2, 3, 4), CIX_SPACE_LENGTH);
    REFUSED(cix_put_pit(NULL, 0, 7, 1, 2, 3, 4), CIX_SPACE_LENGTH);
    REFUSED(cix_delete(NULL, 0, 7, 1, 2, 3), CIX_SPACE_LENGTH);
    REFUSED(cix_set_minutes(NULL, 0, 7, 1, 2, 3, 4), CIX_SPACE_LENGTH);
    REFUSED(cix_drop_tag(NULL, 0, 7), CIX_SPACE_LENGTH);
    REFUSED(cix_commit(NULL, 0, NULL, 0, CIX_ALL), CIX_BAD_HEAD);
    REFUSED(cix_recover(NULL, 0, CIX_ALL), CIX_BAD_HEAD);
    REFUSED(cix_count_image(NULL, 0, 7), CIX_BAD_HEAD);
    REFUSED(cix_count_space(NULL, 0, 7), CIX_SPACE_LENGTH);
    REFUSED(cix_rank_image(NULL, 0, 7, 1, 2, 3), CIX_BAD_HEAD);
    REFUSED(cix_rank_space(NULL, 0, 7, 1, 2, 3), CIX_SPACE_LENGTH);
    DONE(cix_show_image(NULL, 0, 7), 0);
    DONE(cix_show_space(NULL, 0, 7), 0);
    REFUSED(cix_both_image(NULL, 0, 7, 9, NULL, 0), CIX_BAD_HEAD);
    REFUSED(cix_either_image(NULL, 0, 7, 9, NULL, 0), CIX_BAD_HEAD);
    REFUSED(cix_without_image(NULL, 0, 7, 9, NULL, 0), CIX_BAD_HEAD);
    REFUSED(cix_both_space(NULL, 0, 7, 9, NULL, 0), CIX_SPACE_LENGTH);
    REFUSED(cix_either_space(NULL, 0, 7, 9, NULL, 0), CIX_SPACE_LENGTH);
    REFUSED(cix_without_space(NULL, 0, 7, 9, NULL, 0), CIX_SPACE_LENGTH);
}

/* Lengths below the true ones, each of them. */
static void short_lengths(void) {
    for (size_t n = 0; n < sizeof image; n++) {
        REFUSED(cix_begin(image, n, SPACE), CIX_BAD_HEAD);
        REFUSED(cix_recover(image, n, CIX_ALL), CIX_BAD_HEAD);
        REFUSED(cix_format(image, n, ENTRIES, PAGES, CIX_STEP_FINE, CIX_ALL), CIX_SIZES);
    }
    for (size_t n = 0; n < sizeof space; n++) {
        REFUSED(cix_begin(IMAGE, space, n), CIX_SPACE_LENGTH);
        REFUSED(cix_commit(IMAGE, space, n, CIX_ALL), CIX_SPACE_LENGTH);
        if (n != CIX_SPACE_BYTES(1)) {
            REFUSED(cix_put(space, n, 7, 0, 0, 0, 0), CIX_SPACE_LENGTH);
            REFUSED(cix_put_pit(space, n, 7, 0, 0, 0, 0), CIX_SPACE_LENGTH);
        }
    }
}

/* Lengths above the true ones that no image or workspace has: refused by the length alone, or by the
 * head's first page. The buffers end where they end, so that valgrind sees a byte read behind them. */
static void long_lengths(void) {
    static const size_t more[] = {1, 63, 65, 1u << 20, SIZE_MAX / 2 - sizeof image, SIZE_MAX - sizeof image};
    uint8_t *i = malloc(sizeof image), *s = malloc(sizeof space), *out = malloc(8);
    memcpy(i, image, sizeof image);
    memcpy(s, space, sizeof space);
    for (size_t j = 0; j < sizeof more / sizeof *more; j++) {
        size_t n = sizeof image + more[j], m = sizeof space + more[j];
        REFUSED(cix_format(i, n, ENTRIES, PAGES, CIX_STEP_FINE, CIX_ALL), CIX_SIZES);
        REFUSED(cix_begin(i, n, s, sizeof space), CIX_BAD_HEAD);
        REFUSED(cix_begin(i, sizeof image, s, m), CIX_SPACE_LENGTH);
        REFUSED(cix_commit(i, n, s, sizeof space, CIX_ALL), CIX_BAD_HEAD);
        REFUSED(cix_commit(i, sizeof image, s, m, CIX_ALL), CIX_SPACE_LENGTH);
        REFUSED(cix_recover(i, n, CIX_ALL), CIX_BAD_HEAD);
        REFUSED(cix_count_image(i, n, 7), CIX_BAD_HEAD);
        REFUSED(cix_rank_image(i, n, 7, 1, 2, 3), CIX_BAD_HEAD);
        DONE(cix_show_image(i, n, 7), 0);
        REFUSED(cix_either_image(i, n, 7, 9, out, 8), CIX_BAD_HEAD);
        REFUSED(cix_put(s, m, 7, 0, 0, 0, 0), CIX_SPACE_LENGTH);
        REFUSED(cix_put_pit(s, m, 7, 0, 0, 0, 0), CIX_SPACE_LENGTH);
        REFUSED(cix_count_space(s, m, 7), CIX_SPACE_LENGTH);
        REFUSED(cix_rank_space(s, m, 7, 1, 2, 3), CIX_SPACE_LENGTH);
        DONE(cix_either_space(s, sizeof space, 7, 9, out, SIZE_MAX - j), 0);
    }
    free(i);
    free(s);
    free(out);
}

/* Bench cases 1 to 6. */
static void blocks(void) {
    DONE(cix_put(SPACE, 7, 1, 100, 9, 0), 1);
    DONE(cix_put(SPACE, 9, 1, 100, 9, 0), 1);
    check("cell of 7", cell(7), 0, __LINE__);
    check("cell of 9", cell(9), 5, __LINE__);
    for (uint32_t i = 1; i <= 4; i++)
        DONE(cix_put(SPACE, 7, 1, 100 + i, 9, 0), 1 + i);
    check("cell of 9", cell(9), 0, __LINE__);
    check("cell of 7", cell(7), 5, __LINE__);
    DONE(cix_put(SPACE, 11, 1, 100, 9, 0), 1);
    check("cell of 7", cell(7), 10, __LINE__);
    REFUSED(cix_put(SPACE, 13, 1, 100, 9, 0), CIX_NO_ROOM);
    DONE(cix_delete(SPACE, 7, 1, 102, 9), 4);
    REFUSED(cix_delete(SPACE, 7, 1, 102, 9), CIX_UNKNOWN);
    REFUSED(cix_put(SPACE, 13, 1, 100, 9, 0), CIX_NO_ROOM);
    DONE(cix_drop_tag(SPACE, 9), 0);
    REFUSED(cix_drop_tag(SPACE, 9), CIX_UNKNOWN);
    check("cell of 7", cell(7), 0, __LINE__);
    DONE(cix_put(SPACE, 13, 1, 100, 9, 0), 1);
    check("cell of 13", cell(13), 10, __LINE__);
    REFUSED(cix_put(SPACE, 13, 1, 100, 9, 5), CIX_LISTED);
    DONE(cix_set_minutes(SPACE, 13, 1, 100, 9, 5), 1);
}

static void merges(void) {
    uint8_t out[48];
    memset(out, 77, sizeof out);
    DONE(cix_count_space(SPACE, 7), 4);
    DONE(cix_both_space(SPACE, 13, 7, out, sizeof out), 1);
    check("minutes", out[7], 5, __LINE__);
    check("byte behind", out[8], 77, __LINE__);
    DONE(cix_either_space(SPACE, 13, 7, out, sizeof out), 4);
    DONE(cix_without_space(SPACE, 7, 13, out, sizeof out), 3);
    check("second", out[4], 101, __LINE__);
    REFUSED(cix_either_space(SPACE, 13, 7, out, 31), CIX_OUTPUT_SHORT);
}

/* Bench cases 8 and 12: a commit cut before its mark, after it, and recovered. */
static void cuts(void) {
    uint8_t before[sizeof image];
    DONE(cix_format(IMAGE, ENTRIES, PAGES, CIX_STEP_FINE, CIX_ALL), sizeof image + 1);
    DONE(cix_begin(IMAGE, SPACE), 0);
    DONE(cix_commit(IMAGE, SPACE, 0), 0);
    DONE(cix_put(SPACE, 7, 1, 100, 9, 0), 1);
    memcpy(before, image, sizeof image);
    CUT(cix_commit(IMAGE, SPACE, 200), 200);
    DONE(cix_count_image(IMAGE, 7), 0);
    DONE(cix_recover(IMAGE, CIX_ALL), 0);
    memcpy(image, before, sizeof image);
    CUT(cix_commit(IMAGE, SPACE, 201), 201);
    REFUSED(cix_count_image(IMAGE, 7), CIX_UNRECOVERED);
    CUT(cix_recover(IMAGE, 100), 100);
    DONE(cix_recover(IMAGE, CIX_ALL), 193);
    DONE(cix_count_image(IMAGE, 7), 1);
    memcpy(image, before, sizeof image);
    DONE(cix_commit(IMAGE, SPACE, CIX_ALL), 394);
    DONE(cix_both_image(IMAGE, 7, 7, NULL, 0) - cix_without_image(IMAGE, 7, 8, NULL, 0), 0);
    REFUSED(cix_either_image(IMAGE, 7, 8, NULL, 0), CIX_OUTPUT_SHORT);
    uint64_t shown = cix_show_image(IMAGE, 7);
    check("length", CIX_LENGTH(shown), 8, __LINE__);
    check("bytes", memcmp(image + CIX_PLACE(shown), "\1\0\0\0\144\0\11", 8), 0, __LINE__);
}

/* Third in line: the number foretold, in a workspace and through a commit that is cut. */
static void ranks(void) {
    DONE(cix_format(IMAGE, ENTRIES, PAGES, CIX_STEP_FINE, CIX_ALL), sizeof image + 1);
    DONE(cix_begin(IMAGE, SPACE), 0);
    DONE(cix_rank_space(SPACE, 7, 1, 100, 9), 0);
    DONE(cix_put(SPACE, 7, 1, 100, 9, 0), 1);
    DONE(cix_put(SPACE, 7, 1, 100, 3, 255), 2);
    DONE(cix_put(SPACE, 7, 0, 500, 9, 1), 3);
    DONE(cix_rank_space(SPACE, 7, 0, 500, 9), 0);
    DONE(cix_rank_space(SPACE, 7, 1, 100, 3), 1);
    DONE(cix_rank_space(SPACE, 7, 1, 100, 9), 2);
    DONE(cix_rank_space(SPACE, 7, 0, 0, 0), 0);
    DONE(cix_rank_space(SPACE, 7, 255, UINT32_MAX, UINT16_MAX), 3);
    DONE(cix_rank_space(SPACE, 9, 255, UINT32_MAX, UINT16_MAX), 0);
    DONE(cix_commit(IMAGE, SPACE, CIX_ALL), 394);
    DONE(cix_rank_image(IMAGE, 7, 1, 100, 6), 2);
    DONE(cix_put(SPACE, 7, 1, 100, 6, 0), 4);
    DONE(cix_rank_space(SPACE, 7, 1, 100, 6), 2);
    DONE(cix_rank_space(SPACE, 7, 1, 100, 9), 3);
    REFUSED(cix_put(SPACE, 7, 1, 100, 6, 5), CIX_LISTED);
    DONE(cix_rank_space(SPACE, 7, 1, 100, 6), 2);
    CUT(cix_commit(IMAGE, SPACE, 68), 68);
    DONE(cix_rank_image(IMAGE, 7, 1, 100, 6), 2);
    CUT(cix_commit(IMAGE, SPACE, 69), 69);
    REFUSED(cix_rank_image(IMAGE, 7, 1, 100, 6), CIX_UNRECOVERED);
    DONE(cix_recover(IMAGE, CIX_ALL), 65);
    DONE(cix_rank_image(IMAGE, 7, 1, 100, 6), 2);
    DONE(cix_rank_image(IMAGE, 7, 1, 100, 9), 3);
}

/* A list of 64 records is closed to the pit until it has fewer. Its block takes 71 of the 72 cells. */
static void pit(void) {
    uint8_t lists[CIX_SPACE_BYTES(9)] = {0}, before[sizeof lists];
    for (uint32_t i = 1; i <= 64; i++)
        DONE(cix_put_pit(lists, sizeof lists, 7, 1, 100 + i, 9, 0), i);
    memcpy(before, lists, sizeof lists);
    REFUSED(cix_put_pit(lists, sizeof lists, 7, 1, 100, 9, 0), CIX_PIT_FULL);
    REFUSED(cix_put_pit(lists, sizeof lists, 7, 1, 101, 9, 5), CIX_LISTED);
    REFUSED(cix_put_pit(lists, sizeof lists, 9, 1, 100, 9, 0), CIX_NO_ROOM);
    check("workspace", memcmp(before, lists, sizeof lists), 0, __LINE__);
    for (uint32_t i = 65; i <= 70; i++)
        DONE(cix_put(lists, sizeof lists, 7, 1, 100 + i, 9, 0), i);
    REFUSED(cix_put(lists, sizeof lists, 7, 1, 100, 9, 0), CIX_NO_ROOM);
    for (uint32_t i = 70; i >= 64; i--) {
        REFUSED(cix_put_pit(lists, sizeof lists, 7, 1, 100, 9, 0), CIX_PIT_FULL);
        DONE(cix_delete(lists, sizeof lists, 7, 1, 100 + i, 9), i - 1);
    }
    DONE(cix_put_pit(lists, sizeof lists, 7, 1, 100, 9, 0), 64);
    lists[122] = 2;
    REFUSED(cix_put_pit(lists, sizeof lists, 7, 1, 99, 9, 0), CIX_UNSOUND_SPACE);
}

/* Puts a call to a building's tags from one number up to another, in turns from the desk and from the pit. */
static void add(uint8_t *lists, size_t lists_len, uint32_t building, uint32_t from, uint32_t to) {
    for (uint32_t n = from; n < to; n++) {
        if (n % 2)
            DONE(cix_put(lists, lists_len, building << 28 | n, 1, 100, 9, 0), 1);
        else
            DONE(cix_put_pit(lists, lists_len, building << 28 | n, 1, 100, 9, 0), 1);
    }
}

/* 136 tags of one building leave 120, which are kept for the 15 others: with 135 it may add one, with 136 none. */
static void buildings(void) {
    static uint8_t tags[CIX_SPACE_BYTES(170)], before[sizeof tags];
    add(tags, sizeof tags, 0, 0, 136);
    for (uint32_t b = 1; b < 16; b++) {
        memcpy(before, tags, sizeof tags);
        REFUSED(cix_put(tags, sizeof tags, 136, 1, 100, 9, 0), CIX_BUILDING_FULL);
        REFUSED(cix_put_pit(tags, sizeof tags, 136, 1, 100, 9, 0), CIX_BUILDING_FULL);
        check("workspace", memcmp(before, tags, sizeof tags), 0, __LINE__);
        add(tags, sizeof tags, b, 0, 8);
        REFUSED(cix_put(tags, sizeof tags, b << 28 | 8, 1, 100, 9, 0), CIX_BUILDING_FULL);
        REFUSED(cix_put_pit(tags, sizeof tags, b << 28 | 8, 1, 100, 9, 0), CIX_BUILDING_FULL);
    }
    DONE(cix_put(tags, sizeof tags, 0, 1, 101, 9, 0), 2);
    DONE(cix_put_pit(tags, sizeof tags, 0, 1, 102, 9, 0), 3);
    REFUSED(cix_put(tags, sizeof tags, 0, 1, 102, 9, 0), CIX_LISTED);
    DONE(cix_drop_tag(tags, sizeof tags, 15u << 28), 0);
    REFUSED(cix_put(tags, sizeof tags, 136, 1, 100, 9, 0), CIX_BUILDING_FULL);
    DONE(cix_put_pit(tags, sizeof tags, 15u << 28, 1, 100, 9, 0), 1);
    DONE(cix_delete(tags, sizeof tags, 7, 1, 100, 9), 0);
    DONE(cix_put(tags, sizeof tags, 15u << 28 | 8, 1, 100, 9, 0), 1);
    REFUSED(cix_put(tags, sizeof tags, 7, 1, 100, 9, 0), CIX_BUILDING_FULL);
}

/* The same in 680 cells, which 136 tags fill: the building is told first that its part is used up. */
static void buildings_without_room(void) {
    static uint8_t tags[CIX_SPACE_BYTES(85)];
    add(tags, sizeof tags, 3, 0, 136);
    REFUSED(cix_put(tags, sizeof tags, 3u << 28 | 136, 1, 100, 9, 0), CIX_BUILDING_FULL);
    REFUSED(cix_put_pit(tags, sizeof tags, 3u << 28 | 136, 1, 100, 9, 0), CIX_BUILDING_FULL);
    REFUSED(cix_put(tags, sizeof tags, 4u << 28, 1, 100, 9, 0), CIX_NO_ROOM);
    REFUSED(cix_put_pit(tags, sizeof tags, 4u << 28, 1, 100, 9, 0), CIX_NO_ROOM);
}

/* 256 tags of one building, as only an older image has them. */
static void older_tags(void) {
    static uint8_t tags[CIX_SPACE_BYTES(160)];
    tags[0] = tags[4] = 1;
    for (uint32_t n = 0; n < 256; n++) {
        uint8_t *entry = tags + 128 + 6 * n, *block = tags + 1664 + 40 * n;
        entry[3] = block[3] = (uint8_t)n;
        entry[4] = (uint8_t)(5 * n >> 8);
        entry[5] = (uint8_t)(5 * n);
        block[5] = 1;
    }
    DONE(cix_count_space(tags, sizeof tags, 255), 1);
    REFUSED(cix_put(tags, sizeof tags, 256, 0, 0, 0, 0), CIX_BUILDING_FULL);
    REFUSED(cix_put_pit(tags, sizeof tags, 256, 0, 0, 0, 0), CIX_BUILDING_FULL);
    REFUSED(cix_put(tags, sizeof tags, 5u << 28, 0, 0, 0, 0), CIX_TAGS_FULL);
    REFUSED(cix_put_pit(tags, sizeof tags, 5u << 28, 0, 0, 0, 0), CIX_TAGS_FULL);
    DONE(cix_drop_tag(tags, sizeof tags, 255), 0);
    REFUSED(cix_put(tags, sizeof tags, 255, 0, 0, 0, 0), CIX_BUILDING_FULL);
    DONE(cix_put_pit(tags, sizeof tags, 5u << 28, 0, 0, 0, 0), 1);
}

/* A commit cut in the middle of its mark, which then holds neither 0 nor 165. */
static void spoiled_mark(void) {
    DONE(cix_format(IMAGE, ENTRIES, PAGES, CIX_STEP_FINE, CIX_ALL), sizeof image + 1);
    DONE(cix_begin(IMAGE, SPACE), 0);
    DONE(cix_put(SPACE, 7, 1, 100, 9, 0), 1);
    CUT(cix_commit(IMAGE, SPACE, 200), 200);
    image[10] = 9;
    REFUSED(cix_count_image(IMAGE, 7), CIX_UNRECOVERED);
    REFUSED(cix_begin(IMAGE, SPACE), CIX_UNRECOVERED);
    REFUSED(cix_commit(IMAGE, SPACE, CIX_ALL), CIX_UNRECOVERED);
    CUT(cix_recover(IMAGE, 0), 0);
    DONE(cix_recover(IMAGE, CIX_ALL), 1);
    DONE(cix_count_image(IMAGE, 7), 0);
}

/* The sixth record of 11 finds no room behind 9, so 9 is laid at 0 and 11 behind it. */
static void laid_afresh(void) {
    uint8_t lists[2][48];
    DONE(cix_format(IMAGE, ENTRIES, PAGES, CIX_STEP_FINE, CIX_ALL), sizeof image + 1);
    DONE(cix_begin(IMAGE, SPACE), 0);
    DONE(cix_put(SPACE, 7, 1, 100, 9, 0), 1);
    for (uint32_t i = 1; i <= 6; i++)
        DONE(cix_put(SPACE, 9, 1, 200 + i, 9, 0), i);
    DONE(cix_drop_tag(SPACE, 7), 0);
    for (uint32_t i = 1; i <= 5; i++)
        DONE(cix_put(SPACE, 11, 1, 200 + i, 9, 0), i);
    check("cell of 11", cell(11), 0, __LINE__);
    check("cell of 9", cell(9), 6, __LINE__);
    DONE(cix_both_space(SPACE, 9, 9, lists[0], 48), 6);
    DONE(cix_put(SPACE, 11, 1, 206, 9, 0), 6);
    check("cell of 9", cell(9), 0, __LINE__);
    check("cell of 11", cell(11), 7, __LINE__);
    for (uint32_t tag = 9; tag <= 11; tag += 2) {
        DONE(cix_both_space(SPACE, tag, tag, lists[1], 48), 6);
        check("list", memcmp(lists[0], lists[1], 48), 0, __LINE__);
    }
    REFUSED(cix_put(SPACE, 13, 1, 100, 9, 0), CIX_NO_ROOM);
}

/* Numbers that are no step code. */
static void no_codes(void) {
    static const uint32_t codes[] = {2, 255, 256, 257, 1u << 16, UINT32_MAX};
    uint8_t before[sizeof image];
    memcpy(before, image, sizeof image);
    for (size_t j = 0; j < sizeof codes / sizeof *codes; j++)
        REFUSED(cix_format(IMAGE, ENTRIES, PAGES, codes[j], CIX_ALL), CIX_SIZES);
    check("image", memcmp(before, image, sizeof image), 0, __LINE__);
}

/* Blocks of 4, 7 and 11 records: 7's list changes class with its fifth record and its eighth. */
static void coarse_step(void) {
    DONE(cix_format(IMAGE, ENTRIES, PAGES, CIX_STEP_COARSE, CIX_ALL), sizeof image + 1);
    DONE(cix_begin(IMAGE, SPACE), 0);
    DONE(cix_put(SPACE, 7, 1, 100, 9, 0), 1);
    DONE(cix_put(SPACE, 9, 1, 100, 9, 0), 1);
    for (uint32_t i = 1; i <= 6; i++) {
        check("cell of 7", cell(7), i <= 4 ? 0 : 5, __LINE__);
        DONE(cix_put(SPACE, 7, 1, 100 + i, 9, 0), 1 + i);
    }
    check("cell of 9", cell(9), 0, __LINE__);
    REFUSED(cix_put(SPACE, 7, 1, 107, 9, 0), CIX_NO_ROOM);
    DONE(cix_drop_tag(SPACE, 9), 0);
    check("cell of 7", cell(7), 5, __LINE__);
    for (uint32_t i = 7; i <= 10; i++)
        DONE(cix_put(SPACE, 7, 1, 100 + i, 9, 0), 1 + i);
    check("cell of 7", cell(7), 0, __LINE__);
    REFUSED(cix_put(SPACE, 7, 1, 111, 9, 0), CIX_NO_ROOM);
    DONE(cix_commit(IMAGE, SPACE, CIX_ALL), 4 + 130 * 4);
    DONE(cix_count_image(IMAGE, 7), 11);
}

/* A workspace of the other step, committed: the image has it then. */
static void other_step(void) {
    uint8_t fine[sizeof image];
    DONE(cix_format(fine, sizeof fine, ENTRIES, PAGES, CIX_STEP_FINE, CIX_ALL), sizeof fine + 1);
    DONE(cix_commit(fine, sizeof fine, SPACE, CIX_ALL), 4 + 130 * 5);
    DONE(cix_begin(fine, sizeof fine, SPACE), 0);
    REFUSED(cix_put(SPACE, 7, 1, 111, 9, 0), CIX_NO_ROOM);
    space[122] = CIX_STEP_FINE;
    REFUSED(cix_count_space(SPACE, 7), CIX_UNSOUND_SPACE);
    space[122] = 2;
    REFUSED(cix_commit(fine, sizeof fine, SPACE, CIX_ALL), CIX_UNSOUND_SPACE);
}

int main(void) {
    no_bytes();
    DONE(cix_format(IMAGE, ENTRIES, PAGES, CIX_STEP_FINE, CIX_ALL), sizeof image + 1);
    DONE(cix_begin(IMAGE, SPACE), 0);
    short_lengths();
    long_lengths();
    blocks();
    merges();
    cuts();
    ranks();
    pit();
    buildings();
    buildings_without_room();
    older_tags();
    spoiled_mark();
    laid_afresh();
    no_codes();
    coarse_step();
    other_step();
    printf("C: %d checks, %d failed\n", checked, failed);
    return failed != 0;
}
