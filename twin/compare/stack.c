/* Measures how much of the stack each operation of face.h needs: stack LIMIT BOOK... For each it prints a line OPERATION BYTES, the most that any call below
 * needed on any of the books, and in the last line how many operations need at most LIMIT bytes and how many need more. The books are good ones.
 *
 * How it measures: the stack below the caller is painted, the operation is called, and the lowest word that is no longer paint tells how deep it went. That
 * counts a few dozen bytes of the caller, and what the functions of the C library take that the operation calls.
 *
 * What it does not see: words that were reserved and never written, of which there may be a page (the library writes to each page of what it reserves); a word
 * that was written over with the value of the paint; and what a call would need that is not made here. */
#include "face.h"

#include <fcntl.h>
#include <stdio.h>
#include <stdlib.h>
#include <unistd.h>

enum { READ, JUDGE, CONTRACT, CLOSE, ASK, ASK_SET, SEARCH, WRITE, OPERATIONS };

static const char *const names[OPERATIONS] = {"read", "judge", "contract", "close", "ask", "ask_set", "search", "write"};

/* What the operations are given beside the book. A full-size book has 16,777,216 choices and 128 spans. */
struct given {
    uint32_t choice, span;
    uint64_t low, high;
    uint32_t limit;
    size_t bytes_len, out_len;
};

static const struct given tried[] = {
    {.choice = 0, .span = 0, .low = 0, .high = 0, .limit = 0, .bytes_len = GRISTVALLEY_LONGEST_BOOK, .out_len = GRISTVALLEY_NUMBERS},
    {.choice = 1, .span = 1, .low = 3, .high = 0, .limit = 1, .bytes_len = 0, .out_len = GRISTVALLEY_NUMBERS},
    {.choice = 16777215, .span = 127, .low = ~0ul, .high = ~0ul, .limit = 300, .bytes_len = GRISTVALLEY_LONGEST_BOOK, .out_len = GRISTVALLEY_NUMBERS},
    {.choice = 0, .span = ~0u, .low = 0, .high = 1ul << 63, .limit = 300, .bytes_len = 1, .out_len = GRISTVALLEY_NUMBERS},
    {.choice = ~0u, .span = 0, .low = 1, .high = 1, .limit = 300, .bytes_len = GRISTVALLEY_LONGEST_BOOK, .out_len = GRISTVALLEY_NUMBERS - 1},
};

static uint8_t book[65536], bytes[GRISTVALLEY_LONGEST_BOOK];
static uint64_t out[GRISTVALLEY_NUMBERS];

/* The paint: WORDS words, which are a mebibyte, of a value that no operation has a reason to write. */
enum { WORDS = 131072 };
static const uint64_t PAINT = 0x5AC3965AC3965AC3;

/* Where the lowest painted word is. This is a number and no pointer, since the words belong to no variable by the time they are looked at. */
static uint64_t bottom;

/* Ends the program where it was called wrongly. */
static _Noreturn void refuse(const char *words, const char *what)
{
    dprintf(2, "stack: %s%s\n", words, what);
    exit(2);
}

/* Paints the stack below the caller. The words are a variable of this function, so that the machine lets the stack grow over them. */
static __attribute__((noinline)) void paint(void)
{
    volatile uint64_t words[WORDS];
    for (size_t i = 0; i < WORDS; i++) words[i] = PAINT;
    bottom = (uint64_t)words;
}

/* Tells where the lowest word is that is no longer paint. What this function keeps on the stack itself is at the top of the paint, and so is higher. */
static __attribute__((noinline)) uint64_t lowest(void)
{
    const volatile uint64_t *word = (const volatile uint64_t *)bottom;
    while ((uint64_t)word < bottom + 8ul * WORDS && *word == PAINT) word++;
    return (uint64_t)word;
}

/* Makes a call. What it answers is for the comparison to judge. */
static void call(int operation, size_t book_len, const struct given *g)
{
    switch (operation) {
    case READ: gristvalley_read(book, book_len, out, g->out_len); break;
    case JUDGE: gristvalley_judge(book, book_len, g->choice, out, g->out_len); break;
    case CONTRACT: gristvalley_contract(book, book_len, g->choice, out, g->out_len); break;
    case CLOSE: gristvalley_close(book, book_len, g->choice, out, g->out_len); break;
    case ASK: gristvalley_ask(book, book_len, g->choice, g->span, out, g->out_len); break;
    case ASK_SET: gristvalley_ask_set(book, book_len, g->choice, g->low, g->high, out, g->out_len); break;
    case SEARCH: gristvalley_search(book, book_len, g->limit, out, g->out_len); break;
    default: gristvalley_write(book, book_len, g->choice, bytes, g->bytes_len, out, g->out_len);
    }
}

/* Tells how many bytes of the stack a call needs. */
static __attribute__((noinline)) uint64_t need(int operation, size_t book_len, const struct given *g)
{
    uint64_t top = (uint64_t)__builtin_frame_address(0);
    paint();
    call(operation, book_len, g);
    return top - lowest();
}

/* Makes every call on the book, and keeps the most that each operation needed. */
static void measure(size_t book_len, uint64_t *most)
{
    for (size_t i = 0; i < sizeof tried / sizeof *tried; i++)
        for (int operation = 0; operation < OPERATIONS; operation++) {
            uint64_t needed = need(operation, book_len, &tried[i]);
            if (needed > most[operation]) most[operation] = needed;
        }
}

/* Loads a book, and tells its length. A file that is no book would bring refusals alone, and with them no full measure. */
static size_t load(const char *name)
{
    int file = open(name, O_RDONLY);
    if (file < 0) refuse("there is no book ", name);
    size_t length = 0;
    long got;
    while ((got = read(file, book + length, sizeof book - length)) > 0) length += (size_t)got;
    close(file);
    if (got < 0 || length == sizeof book || !gristvalley_read(book, length, out, GRISTVALLEY_NUMBERS) || out[0] == 0) refuse("this is no good book: ", name);
    return length;
}

/* Prints what each operation needed, and tells how many need more than the limit. */
static int report(const uint64_t *most, uint64_t limit)
{
    int failed = 0;
    for (int operation = 0; operation < OPERATIONS; operation++) {
        printf("%s %lu\n", names[operation], most[operation]);
        failed += most[operation] > limit;
    }
    printf("%d passed, %d failed\n", OPERATIONS - failed, failed);
    return failed;
}

/* Measures on no bytes at all, and on each book as it is and with its last byte changed. All the paint and more look alike, so LIMIT must be less than it. */
int main(int count, char **words)
{
    uint64_t most[OPERATIONS] = {0};
    char *end = "";
    uint64_t limit = count < 3 ? 0 : strtoul(words[1], &end, 10);
    if (*end != 0 || limit == 0 || limit >= 8ul * WORDS) refuse("want: LIMIT BOOK..., and a LIMIT below 1048576", "");
    measure(0, most);
    for (int i = 2; i < count; i++) {
        size_t length = load(words[i]);
        measure(length, most);
        book[length - 1] ^= 1;
        measure(length, most);
    }
    return report(most, limit) > 0;
}
