/* cix.h: the proved call index, for C.
 *
 * The index lives on an image, which the caller keeps: 64 + 66 L + 64 (26 + R) bytes for L log
 * entries and R record pages (R from 1 to 1,024, L from 1 to 26 + R). Edits are made on a
 * workspace of 64 (26 + R) bytes, which the caller lends, and reach the image by a commit. Nothing
 * is kept between calls, nothing is allocated, and only lent bytes are touched.
 *
 * The power may fail at any store of a commit or a recovery, and in the middle of one: the byte that
 * was to be stored may then hold any value, while the bytes before it are stored and all others are
 * as they were. After that, and any number of recoveries that fail likewise, the first recovery that
 * finishes leaves the index from before the commit or the one that it was to make.
 *
 * Every slice is a pointer and a length. The bytes may be anything. A null pointer is fine with
 * length 0. A slice must have as many bytes as its length says, and a slice that is written may
 * not overlap another one of the same call.
 *
 * Answers. Every call answers one number of 64 bits. The upper half says what it is, the lower
 * half has a number:
 *
 *     CIX_DONE      a count of records, or the number of stores made
 *     CIX_CUT       the stores that were made before the allowance ran out
 *     CIX_REFUSED   the refusal, one of enum cix_refusal; no lent byte was changed
 *
 * The two show calls answer a place and a length instead.
 */
#ifndef CIX_H
#define CIX_H

#include <stddef.h>
#include <stdint.h>

#ifdef __cplusplus
extern "C" {
#endif

enum cix_kind { CIX_DONE = 0, CIX_CUT = 1, CIX_REFUSED = 2 };

/* Where several apply, the one that comes first after `Refused:` at the call is given. That goes by place,
 * not by size: 17 stands after 8 and before 10, 19 after 10 and 17 and before 11. There is no 16 and no
 * 18. */
enum cix_refusal {
    CIX_BAD_HEAD = 1,        /* the image's head or length is not right */
    CIX_BAD_MARK = 2,        /* no longer given */
    CIX_UNRECOVERED = 3,     /* the image's mark is not 0: recover first */
    CIX_BAD_LOG = 4,         /* recover: the log's count or page numbers are not right */
    CIX_UNSOUND_HOME = 5,    /* the image's home is not sound */
    CIX_SPACE_LENGTH = 6,    /* the workspace has the wrong length */
    CIX_UNSOUND_SPACE = 7,   /* the workspace is not sound */
    CIX_LISTED = 8,          /* put: that call is on the list already */
    CIX_UNKNOWN = 9,         /* delete, set: no such call; drop: no such tag */
    CIX_LIST_FULL = 10,      /* put: the list has 989 calls */
    CIX_TAGS_FULL = 11,      /* put: there are 256 tags */
    CIX_NO_ROOM = 12,        /* put: all blocks together would not fit */
    CIX_LOG_SHORT = 13,      /* commit: more pages differ than the log has entries */
    CIX_SIZES = 14,          /* format: sizes or step code out of range, or the length does not match */
    CIX_OUTPUT_SHORT = 15,   /* the output is shorter than the records to write */
    CIX_PIT_FULL = 17,       /* put from the pit: the list has 64 calls or more */
    CIX_BUILDING_FULL = 19   /* put of a new tag: its building has 8 tags or more, and the unused tags are
                              * kept for buildings that have fewer than 8 */
};

/* Step codes: how a block's capacity grows when its list does. By 31/20 fewer blocks move than by 25/21,
 * and they take more space. */
enum cix_step {
    CIX_STEP_FINE = 0,       /* 4, 5, 6, 8, 10, .. 989 records: each the one before times 25/21 */
    CIX_STEP_COARSE = 1      /* 4, 7, 11, 18, 28, .. 989 records: each the one before times 31/20 */
};

/* What an answer is, and its number. */
#define CIX_KIND(answer) ((enum cix_kind)((uint64_t)(answer) >> 32))
#define CIX_NUMBER(answer) ((uint32_t)(answer))

/* Where a show call's records begin in the lent bytes, and how many bytes they have. */
#define CIX_PLACE(answer) ((size_t)((uint64_t)(answer) >> 32))
#define CIX_LENGTH(answer) ((size_t)(uint32_t)(answer))

/* The bytes of an image and of a workspace. */
#define CIX_SPACE_BYTES(pages) (64u * (26u + (pages)))
#define CIX_IMAGE_BYTES(entries, pages) (64u + 66u * (entries) + CIX_SPACE_BYTES(pages))

/* More stores than any call needs: never cut. */
#define CIX_ALL UINT32_MAX

/* A record has 8 bytes: level (1), second (4), phone (2), minutes (1), most significant byte first.
 * Lists rise by level, then second, then phone.
 *
 * A tag is any number of 32 bits, whose top four name one of 16 buildings. There are at most 256 tags, and
 * each building is sure of 8: one that has 8 or more may add a tag only while more are unused than the
 * buildings below 8 still lack. */

/* Makes the image an empty index of `entries` log entries and `pages` record pages, whose blocks grow
 * by `step`, one of enum cix_step, with at most `stores` stores. Done or cut, with the stores made.
 * Refused: 14. */
uint64_t cix_format(uint8_t *image, size_t image_len, uint32_t entries, uint32_t pages, uint32_t step,
                    uint32_t stores);

/* Copies the image's index to the workspace, whose old bytes do not matter. Done, 0.
 * Refused: 1, 3, 5, 6. */
uint64_t cix_begin(const uint8_t *image, size_t image_len, uint8_t *space, size_t space_len);

/* Puts a record to a tag's list in the workspace. Done, with the list's count afterwards.
 * Refused: 6, 7, 8, 10, 19, 11, 12. */
uint64_t cix_put(uint8_t *space, size_t space_len, uint32_t tag, uint8_t level, uint32_t second,
                 uint16_t phone, uint8_t minutes);

/* The same from the pit, which puts to lists of fewer than 64 records only, whoever put these.
 * Refused: 6, 7, 8, 17, 19, 11, 12. */
uint64_t cix_put_pit(uint8_t *space, size_t space_len, uint32_t tag, uint8_t level, uint32_t second,
                     uint16_t phone, uint8_t minutes);

/* Deletes the record with this level, second and phone. Done, with the list's count afterwards.
 * Refused: 6, 7, 9. */
uint64_t cix_delete(uint8_t *space, size_t space_len, uint32_t tag, uint8_t level, uint32_t second,
                    uint16_t phone);

/* Gives the record with this level, second and phone these minutes. Done, with the list's count.
 * Refused: 6, 7, 9. */
uint64_t cix_set_minutes(uint8_t *space, size_t space_len, uint32_t tag, uint8_t level,
                         uint32_t second, uint16_t phone, uint8_t minutes);

/* Drops a tag with its list. Done, 0. Refused: 6, 7, 9. */
uint64_t cix_drop_tag(uint8_t *space, size_t space_len, uint32_t tag);

/* Makes the workspace the image's index, its step code too, with at most `stores` stores. Done or cut,
 * with the stores made: 130 for each page of 64 bytes that differs and 4 more, or none. The index found
 * afterwards is the old one or the new one, wherever it was cut. Refused: 1, 3, 5, 6, 7, 13. */
uint64_t cix_commit(uint8_t *image, size_t image_len, const uint8_t *space, size_t space_len,
                    uint32_t stores);

/* Finishes a commit that was cut after its mark was stored, with at most `stores` stores: 64 for each
 * page and 1 more. A mark that is neither 0 nor 165 is cleared by one store; mark 0 needs none. Done
 * or cut, with the stores made. It may be cut and called again any number of times. Refused: 1, 4. */
uint64_t cix_recover(uint8_t *image, size_t image_len, uint32_t stores);

/* Counts a tag's list; an unknown tag has 0. Done, with the count. Refused: 1, 3, 5. */
uint64_t cix_count_image(const uint8_t *image, size_t image_len, uint32_t tag);

/* The same in a workspace. Refused: 6, 7. */
uint64_t cix_count_space(const uint8_t *space, size_t space_len, uint32_t tag);

/* Counts the records of a tag's list before this level, second and phone, listed or not; an unknown
 * tag has 0. Of a listed call that is its place, 0 for the first; of another the place at which a put
 * would list it. Done, with the count. Refused: 1, 3, 5. */
uint64_t cix_rank_image(const uint8_t *image, size_t image_len, uint32_t tag, uint8_t level,
                        uint32_t second, uint16_t phone);

/* The same in a workspace. Refused: 6, 7. */
uint64_t cix_rank_space(const uint8_t *space, size_t space_len, uint32_t tag, uint8_t level,
                        uint32_t second, uint16_t phone);

/* Where a tag's records lie: CIX_PLACE bytes into the image, CIX_LENGTH bytes. 0 for an unknown tag
 * and where the count call is refused. */
uint64_t cix_show_image(const uint8_t *image, size_t image_len, uint32_t tag);

/* The same in a workspace. */
uint64_t cix_show_space(const uint8_t *space, size_t space_len, uint32_t tag);

/* The calls that both lists have, with the first list's minutes, written to the output. Done, with
 * the number of records; bytes behind them stay. Refused: 1, 3, 5, 15. */
uint64_t cix_both_image(const uint8_t *image, size_t image_len, uint32_t first, uint32_t second,
                        uint8_t *out, size_t out_len);

/* The calls that either list has, with the first list's minutes where both have them. As above. */
uint64_t cix_either_image(const uint8_t *image, size_t image_len, uint32_t first, uint32_t second,
                          uint8_t *out, size_t out_len);

/* The first list's calls that the second has not. As above. */
uint64_t cix_without_image(const uint8_t *image, size_t image_len, uint32_t first, uint32_t second,
                           uint8_t *out, size_t out_len);

/* The same three of lists in a workspace. Refused: 6, 7, 15. */
uint64_t cix_both_space(const uint8_t *space, size_t space_len, uint32_t first, uint32_t second,
                        uint8_t *out, size_t out_len);
uint64_t cix_either_space(const uint8_t *space, size_t space_len, uint32_t first, uint32_t second,
                          uint8_t *out, size_t out_len);
uint64_t cix_without_space(const uint8_t *space, size_t space_len, uint32_t first, uint32_t second,
                           uint8_t *out, size_t out_len);

#ifdef __cplusplus
}
#endif

#endif
