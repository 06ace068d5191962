/* The calls of bidprice.h on files: the status and the bytes of one call, or each request for memory refused in turn.
 * Every slice lies alone in memory of its own length, so that a checker of addresses sees a byte too many.
 *
 *     embed_calls check PROBLEM CERTIFICATE | judge PROBLEM JOURNAL | scenarios PROBLEM CHANGES | solve PROBLEM | sheet PROBLEM
 *     embed_calls group PROBLEM FROM TO ROOMS | numbers PROBLEM
 *     embed_calls refuse CALL ..   the same calls, with the nth request for memory refused, for each n
 *     embed_calls time PROBLEM     the milliseconds of the fastest of nine calls of bidprice_solve_numbers */
#define _POSIX_C_SOURCE 200809L
#include "bidprice.h"
#include <inttypes.h>
#include <stdio.h>
#include <stdlib.h>
#include <string.h>
#include <time.h>

static long blocks, refuse_at, asked;
void *__real_malloc(size_t);
void *__real_realloc(void *, size_t);
void __real_free(void *);

static int refused(void) { return refuse_at && ++asked == refuse_at; }

void *__wrap_malloc(size_t n)
{
    void *block = refused() ? NULL : __real_malloc(n);
    blocks += block != NULL;
    return block;
}

void *__wrap_realloc(void *block, size_t n)
{
    void *moved = refused() ? NULL : __real_realloc(block, n);
    blocks += !block && moved;
    return moved;
}

void __wrap_free(void *block)
{
    blocks -= block != NULL;
    __real_free(block);
}

struct bytes {
    uint8_t *at;
    size_t length;
};

static void fail(const char *what)
{
    printf("WRONG: %s\n", what);
    exit(99);
}

static struct bytes bytes_of(size_t length)
{
    struct bytes b = {__real_malloc(length ? length : 1), length};
    if (!b.at)
        exit(98);
    memset(b.at, 0xA5, length);
    return b;
}

static struct bytes file_of(const char *name)
{
    FILE *f = fopen(name, "rb");
    if (!f || fseek(f, 0, SEEK_END))
        exit(98);
    struct bytes b = bytes_of((size_t)ftell(f));
    rewind(f);
    if (fread(b.at, 1, b.length, f) != b.length)
        exit(98);
    fclose(f);
    return b;
}

static void untouched(const void *at, size_t from, size_t to, const char *what)
{
    for (size_t i = from; i < to; i++)
        if (((const uint8_t *)at)[i] != 0xA5)
            fail(what);
}

/* A call with texts. */
struct call {
    const char *name;
    struct bytes first, second;
    uint32_t from, to;
    uint64_t rooms;
};

static uint32_t call_of(const struct call *c, struct bytes answer, uint64_t *written)
{
    const uint8_t *p = c->first.at, *q = c->second.at;
    size_t n = c->first.length, m = c->second.length;
    if (!strcmp(c->name, "check"))
        return bidprice_check(p, n, q, m, answer.at, answer.length, written);
    if (!strcmp(c->name, "judge"))
        return bidprice_judge(p, n, q, m, answer.at, answer.length, written);
    if (!strcmp(c->name, "scenarios"))
        return bidprice_scenarios(p, n, q, m, answer.at, answer.length, written);
    if (!strcmp(c->name, "solve"))
        return bidprice_solve(p, n, answer.at, answer.length, written);
    if (!strcmp(c->name, "sheet"))
        return bidprice_sheet(p, n, answer.at, answer.length, written);
    if (!strcmp(c->name, "group"))
        return bidprice_group(p, n, c->from, c->to, c->rooms, answer.at, answer.length, written);
    exit(97);
}

/* The same; no block that it asked for may be left. */
static uint32_t text_call(const struct call *c, struct bytes answer, uint64_t *written)
{
    blocks = 0;
    uint32_t status = call_of(c, answer, written);
    if (blocks)
        fail("a block was lost");
    return status;
}

/* The whole answer: first into no room, then one byte short, then just enough, then too much. */
static uint32_t whole(const struct call *c, struct bytes *answer)
{
    uint64_t needed = 0, written = 77;
    struct bytes none = bytes_of(0);
    uint32_t empty = text_call(c, none, &needed);
    if (needed ? empty != BIDPRICE_LENGTH : empty > 3)
        fail("no room");
    if (needed) {
        struct bytes shorter = bytes_of(needed - 1);
        if (text_call(c, shorter, &written) != BIDPRICE_LENGTH || written != needed)
            fail("one byte short");
        untouched(shorter.at, 0, shorter.length, "a short buffer was touched");
        __real_free(shorter.at);
    }
    *answer = bytes_of(needed);
    uint32_t status = text_call(c, *answer, &written);
    if (written != needed || status > 3)
        fail("just enough room");
    struct bytes longer = bytes_of(needed + 9);
    if (text_call(c, longer, &written) != status || written != needed || memcmp(longer.at, answer->at, needed))
        fail("more room");
    untouched(longer.at, needed, longer.length, "the rest of the buffer was touched");
    __real_free(none.at), __real_free(longer.at);
    return status;
}

static void refuse_text(const struct call *c)
{
    struct bytes right;
    uint32_t status = whole(c, &right);
    long nth, sixes = 0;
    for (nth = 1;; nth++) {
        struct bytes got = bytes_of(right.length);
        uint64_t written = 77;
        asked = 0, refuse_at = nth;
        uint32_t ended = text_call(c, got, &written);
        refuse_at = 0;
        if (ended == BIDPRICE_NO_MEMORY) {
            sixes++;
            if (written != 77)
                fail("a length was written without memory");
            untouched(got.at, 0, got.length, "bytes were written without memory");
        } else if (ended != status || written != right.length || memcmp(got.at, right.at, right.length)) {
            fail("another answer");
        }
        __real_free(got.at);
        if (asked < nth)
            break;
    }
    printf("%ld requests refused in turn, %ld times status 6\n", nth - 1, sixes);
}

static uint64_t *rooms, *rate, *forecast, *sell, *prices, value;
static uint32_t *from, *to;
static size_t nights, stays;
static struct bidprice_refusal why;

static void read_numbers(const char *name)
{
    FILE *f = fopen(name, "r");
    if (!f || fscanf(f, "problem 1 nights %zu rooms", &nights) != 1)
        exit(98);
    rooms = (uint64_t *)bytes_of(8 * nights).at, prices = (uint64_t *)bytes_of(8 * nights).at;
    for (size_t n = 0; n < nights; n++)
        if (fscanf(f, "%" SCNu64, rooms + n) != 1)
            exit(98);
    if (fscanf(f, " stays %zu", &stays) != 1)
        exit(98);
    from = (uint32_t *)bytes_of(4 * stays).at, to = (uint32_t *)bytes_of(4 * stays).at;
    rate = (uint64_t *)bytes_of(8 * stays).at, forecast = (uint64_t *)bytes_of(8 * stays).at;
    sell = (uint64_t *)bytes_of(8 * stays).at;
    for (size_t j = 0; j < stays; j++)
        if (fscanf(f, " stay %" SCNu32 " %" SCNu32 " %" SCNu64 " %" SCNu64, from + j, to + j, rate + j, forecast + j) != 4)
            exit(98);
    fclose(f);
}

static uint32_t numbers(void)
{
    blocks = 0;
    uint32_t status = bidprice_solve_numbers(rooms, nights, from, stays, to, stays, rate, stays, forecast, stays,
                                             &value, sell, stays, prices, nights, &why);
    if (blocks)
        fail("a block was lost");
    return status;
}

static void print_numbers(void)
{
    printf("certificate 1\nvalue %" PRIu64 "\nsell", value);
    for (size_t j = 0; j < stays; j++)
        printf(" %" PRIu64, sell[j]);
    printf("\nprices");
    for (size_t n = 0; n < nights; n++)
        printf(" %" PRIu64, prices[n]);
    printf("\nend\n");
}

/* Where a slice has not its length, the status is 8 and nothing is written. */
static void other_lengths(void)
{
    for (int which = 0; which < 5; which++) {
        size_t n[5] = {stays, stays, stays, stays, nights};
        n[which] += 1;
        memset(sell, 0xA5, 8 * stays), memset(prices, 0xA5, 8 * nights);
        value = 5, why.limit = 9;
        if (bidprice_solve_numbers(rooms, nights, from, stays, to, n[0], rate, n[1], forecast, n[2],
                                   &value, sell, n[3], prices, n[4], &why) != BIDPRICE_LENGTH)
            fail("a slice of another length was taken");
        if (value != 5 || why.limit != 9)
            fail("something was written at another length");
        untouched(sell, 0, 8 * stays, "sell was written at another length");
        untouched(prices, 0, 8 * nights, "prices were written at another length");
    }
}

static void refuse_numbers(void)
{
    long nth, sixes = 0;
    for (nth = 1;; nth++) {
        value = 5, why.limit = 9;
        memset(sell, 0xA5, 8 * stays), memset(prices, 0xA5, 8 * nights);
        asked = 0, refuse_at = nth;
        uint32_t ended = numbers();
        refuse_at = 0;
        if (why.limit != 9)
            fail("a refusal was written");
        if (ended == BIDPRICE_NO_MEMORY) {
            sixes++;
            if (value != 5)
                fail("a value was written without memory");
            untouched(sell, 0, 8 * stays, "sell was written without memory");
            untouched(prices, 0, 8 * nights, "prices were written without memory");
        } else if (ended) {
            fail("another status");
        }
        if (asked < nth)
            break;
    }
    printf("%ld requests refused in turn, %ld times status 6\n", nth - 1, sixes);
}

static void time_numbers(void)
{
    double best = 1e9;
    for (int run = 0; run < 9; run++) {
        struct timespec a, b;
        clock_gettime(CLOCK_MONOTONIC, &a);
        if (numbers())
            exit(96);
        clock_gettime(CLOCK_MONOTONIC, &b);
        double taken = (double)(b.tv_sec - a.tv_sec) * 1e3 + (double)(b.tv_nsec - a.tv_nsec) / 1e6;
        if (taken < best)
            best = taken;
    }
    printf("%.3f\n", best);
}

int main(int count, char **words)
{
    int refuse = count > 1 && !strcmp(words[1], "refuse");
    words += refuse, count -= refuse;
    if (count < 3)
        return 97;
    if (!strcmp(words[1], "numbers") || !strcmp(words[1], "time")) {
        read_numbers(words[2]);
        if (!strcmp(words[1], "time"))
            return time_numbers(), 0;
        if (refuse)
            return refuse_numbers(), 0;
        other_lengths();
        uint32_t status = numbers();
        if (!status)
            print_numbers();
        return (int)status;
    }
    struct call c = {words[1], file_of(words[2]), bytes_of(0), 0, 0, 0};
    if (count == 4)
        c.second = file_of(words[3]);
    if (count == 6)
        c.from = (uint32_t)strtoul(words[3], NULL, 10), c.to = (uint32_t)strtoul(words[4], NULL, 10),
        c.rooms = strtoull(words[5], NULL, 10);
    if (refuse)
        return refuse_text(&c), 0;
    struct bytes answer;
    uint32_t status = whole(&c, &answer);
    fwrite(answer.at, 1, answer.length, stdout);
    return (int)status;
}
