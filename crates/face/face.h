/* The operations of Gristvalley for C. docs/FACE.md says what each number is; link out/libface.a.
 *
 * A slice is a pointer, which is never null, and a length. Each function is given the bytes of a book and stores nine numbers in `out`:
 *
 *   out[0]  the kind of the answer; 0 where it is a refusal
 *   out[1]  the number of the refusal, or 0
 *   out[2]  the place of the refusal, or 0
 *   out[3] to out[8]  what the answer carries, as said below, and then 0
 *
 * It returns whether `out` had room for nine; where it had not, `out` is as before. What stands beyond the nine is kept. The slices that are lent to be written
 * share nothing with each other or with the book. */
#ifndef GRISTVALLEY_FACE_H
#define GRISTVALLEY_FACE_H

#include <stdbool.h>
#include <stddef.h>
#include <stdint.h>

#ifdef __cplusplus
extern "C" {
#endif

enum { GRISTVALLEY_NUMBERS = 9, GRISTVALLEY_LONGEST_BOOK = 3976 };

enum { GRISTVALLEY_REFUSED = 0, GRISTVALLEY_TOLD = 1 };
enum { GRISTVALLEY_OVER = 1, GRISTVALLEY_SPLIT = 2, GRISTVALLEY_CUT = 3, GRISTVALLEY_OK = 4 };
enum { GRISTVALLEY_SITE_DOWN = 1, GRISTVALLEY_SITE_OK = 2 };
enum { GRISTVALLEY_FOUND = 1, GRISTVALLEY_NONE = 2, GRISTVALLEY_MORE = 3 };

/* Reads a book. TOLD: nodes, spans, lightpaths, alternatives, the set of stations (bit i for node i). */
bool gristvalley_read(const uint8_t *book, size_t book_len, uint64_t *out, size_t out_len);

/* Judges a choice, and scores it. OVER, SPLIT, CUT or OK: span, load, limit, side (bit i for node i), F, Fc. */
bool gristvalley_judge(const uint8_t *book, size_t book_len, uint32_t choice, uint64_t *out, size_t out_len);

/* Judges a choice by contraction. OVER, SPLIT, CUT or OK: span, load, limit, side, the number of merges. */
bool gristvalley_contract(const uint8_t *book, size_t book_len, uint32_t choice, uint64_t *out, size_t out_len);

/* Judges a choice with its nodes closed one at a time. SITE_DOWN or SITE_OK: the lowest node whose closing parts the other stations, the side with it closed. */
bool gristvalley_close(const uint8_t *book, size_t book_len, uint32_t choice, uint64_t *out, size_t out_len);

/* Asks about a span of a choice. TOLD: the side with the span out, and 1 where it holds all stations, else 0. */
bool gristvalley_ask(const uint8_t *book, size_t book_len, uint32_t choice, uint32_t span, uint64_t *out, size_t out_len);

/* Asks about a set of spans of a choice: bit i of `low` is for span i, and bit i of `high` for span 64 + i. TOLD: the side with all of them out, and 1 where it
 * holds all stations, else 0. */
bool gristvalley_ask_set(const uint8_t *book, size_t book_len, uint32_t choice, uint64_t low, uint64_t high, uint64_t *out, size_t out_len);

/* Searches the choices of a book, at most `limit` of them. FOUND, NONE or MORE: choice, limit, the number of choices. */
bool gristvalley_search(const uint8_t *book, size_t book_len, uint32_t limit, uint64_t *out, size_t out_len);

/* Writes a choice into `bytes`, whether or not `out` has room. TOLD: the length of what was written; what stands beyond it is kept. Where it is refused, `bytes` is
 * as before. GRISTVALLEY_LONGEST_BOOK bytes are room enough. */
bool gristvalley_write(const uint8_t *book, size_t book_len, uint32_t choice, uint8_t *bytes, size_t bytes_len, uint64_t *out, size_t out_len);

#ifdef __cplusplus
}
#endif

#endif
