/* bidprice: the commands of the program and its solver, as calls.
 *
 * Texts are bytes with a length, not ended by a zero; docs/formats.md says what stands in them. Nights count from 0, money
 * is in minor units, rooms and forecasts are in units (whole rooms, or hundredths where you count so).
 *
 * Every pointer has to be good for its length and not null, also where the length is 0. What is written may not overlap
 * what is read, and no other thread may touch either while a call runs. No call keeps a pointer or gives memory out: all
 * buffers are yours. Calls share nothing, so any number of threads may call at once, each with buffers of its own. Do not
 * call from a signal handler, nor from the forked child of a process with threads. */
#ifndef BIDPRICE_H
#define BIDPRICE_H
#include <stddef.h>
#include <stdint.h>
#ifdef __cplusplus
extern "C" {
#endif

enum bidprice_status {
    BIDPRICE_DONE = 0,      /* the answer is there */
    BIDPRICE_WRONG = 1,     /* of check and judge: it does not hold, and the text says why */
    BIDPRICE_USAGE = 2,     /* of group: numbers that no line of the program may have */
    BIDPRICE_REFUSED = 3,   /* a text or a number is refused; the text or `refused` says which */
    BIDPRICE_NO_MEMORY = 6, /* there was no memory; nothing was written */
    BIDPRICE_LENGTH = 8     /* the buffer is too short, or a slice has not its length */
};

/* The calls with texts. Each is a command of the program on files that hold these texts: the status is the command's, and
 * answer[0] to answer[*written - 1] are the bytes that it writes; the rest of the buffer is as before. At status 8 the
 * whole answer has *written bytes and does not fit, and nothing but *written was changed: call again with so much room. At
 * status 6 nothing was changed. */

/* bidprice check: is this certificate right for this problem? Status 0, 1 or 3. */
uint32_t bidprice_check(const uint8_t *problem, size_t problem_length,
                        const uint8_t *certificate, size_t certificate_length,
                        uint8_t *answer, size_t answer_length, uint64_t *written);

/* bidprice solve: a certificate with the least prices. Status 0 or 3. */
uint32_t bidprice_solve(const uint8_t *problem, size_t problem_length,
                        uint8_t *answer, size_t answer_length, uint64_t *written);

/* bidprice group: what so many rooms on each night from `from` to `to` - 1 displace. Status 0 or 3, or 2 where a night is
 * above 999999999 or the rooms are not 1 to 10000, which no line of the program may have either. */
uint32_t bidprice_group(const uint8_t *problem, size_t problem_length, uint32_t from, uint32_t to, uint64_t rooms,
                        uint8_t *answer, size_t answer_length, uint64_t *written);

/* bidprice judge: is this journal a legal history of the problem's house? Status 0, 1 or 3. */
uint32_t bidprice_judge(const uint8_t *problem, size_t problem_length,
                        const uint8_t *journal, size_t journal_length,
                        uint8_t *answer, size_t answer_length, uint64_t *written);

/* bidprice scenarios: the optimum and the least prices after each list of changes, in one thread. The problem is solved once,
 * and each list takes a restart from there, which costs what its changes move. Status 0 or 3. */
uint32_t bidprice_scenarios(const uint8_t *problem, size_t problem_length,
                            const uint8_t *changes, size_t changes_length,
                            uint8_t *answer, size_t answer_length, uint64_t *written);

/* bidprice sheet: the bands of each night, and what a stay of each length has to pay. Status 0 or 3. */
uint32_t bidprice_sheet(const uint8_t *problem, size_t problem_length,
                        uint8_t *answer, size_t answer_length, uint64_t *written);

/* Why numbers are refused: 1 no night, 2 more than 400 nights, 3 more than 4000 stays, 4 more than 1000000 units on night
 * `place`, 5 the span of stay `place`, 6 its rate (1 to 1000000000), 7 its forecast (at most 1000000). It is the first that
 * holds, in this order, at its first place. `place` is 0 for limits 1 to 3. */
struct bidprice_refusal {
    uint32_t limit;
    uint32_t place;
};

/* Solves numbers, without a text. rooms has one number a night; from, to, rate and forecast have one a stay: stay j sleeps
 * on nights from[j] to to[j] - 1. At status 0 *value is the optimum, sell has the units that are sold of each stay, and
 * prices the least optimal price of each night. At status 3 *refused says why. At status 8 some slice has not its length:
 * to, rate, forecast and sell have as many as from, and prices has as many as rooms. At each status but 0, value, sell and
 * prices are as before, and at each but 3, refused is. */
uint32_t bidprice_solve_numbers(const uint64_t *rooms, size_t nights,
                                const uint32_t *from, size_t stays, const uint32_t *to, size_t to_length,
                                const uint64_t *rate, size_t rate_length,
                                const uint64_t *forecast, size_t forecast_length,
                                uint64_t *value, uint64_t *sell, size_t sell_length,
                                uint64_t *prices, size_t prices_length, struct bidprice_refusal *refused);

#ifdef __cplusplus
}
#endif
#endif
