/* Marshdeck's resampler for C: one channel of f32, from any source rate in limits to a target rate.
 *
 * Link with libcapi.a, which `tools/archive` writes for x86-64 Linux (-lm does no harm, and is not needed). Nothing
 * here allocates, keeps a pointer, or has a state of its own: all that is kept between two calls is in the
 * caller's marshdeck_state and in the two buffers that the caller lends. Calls on different states and buffers
 * may run at the same time.
 *
 * Whatever the numbers are, a call comes back: a bad one gets a number, counts of 0 and the state that it was
 * given (a refused marshdeck_new: all 0), and its buffers keep their contents.
 *
 * What the caller has to promise, because nothing here can see it, is said of pointers and of the
 * floating-point mode:
 *   - each of mem, coefs, in and out points to as many floats as mem_len, coefs_len, in_len and out_len say,
 *     aligned as floats are; those of a const pointer may be read, the others read and written;
 *   - where the length is 0 the pointer may be NULL;
 *   - a buffer that is not const overlaps no other buffer of the same call: mem, out and a coefs that is not
 *     const stand apart from each other and from the rest. in and a const coefs may overlap each other;
 *   - while a call runs, nobody else writes what it was lent, or reads what it may write;
 *   - the thread's floating-point mode is the one that a C program starts with: round to nearest, subnormals
 *     kept (no FTZ or DAZ, which -ffast-math may set for a whole program), no exception unmasked. In another
 *     mode the numbers are others, a good state may get MARSHDECK_STATE, and nothing that is proved holds. */
#ifndef MARSHDECK_H
#define MARSHDECK_H

#include <stddef.h>
#include <stdint.h>

/* Goes up by one with each change of a struct, a function or a number below. */
#define MARSHDECK_VERSION 1

#ifdef __cplusplus
extern "C" {
#endif

/* Why a call is refused, and 0 where it is accepted. */
#define MARSHDECK_ACCEPTED 0
#define MARSHDECK_RATE 1         /* a rate is not from 4,000 to 192,000 Hz */
#define MARSHDECK_HISTORY 2      /* mem is shorter than needed */
#define MARSHDECK_COEFFICIENTS 3 /* coefs is shorter than needed */
#define MARSHDECK_EMPTY_INPUT 4  /* the input is empty */
#define MARSHDECK_TOO_LONG 5     /* the input or the output is longer than 16,777,216 */
#define MARSHDECK_NO_RATE 6      /* no source rate was set */
#define MARSHDECK_STATE 7        /* the state's numbers don't belong together */
#define MARSHDECK_TOO_MANY 100   /* marshdeck_closed_total alone: more than 2^40 samples */

/* What no two rates in limits go beyond. */
#define MARSHDECK_MAX_HISTORY 7839
#define MARSHDECK_MAX_COEFFICIENTS 7688
#define MARSHDECK_MAX_CALL 16777216

/* All that the resampler keeps between two calls but the samples and the coefficients. Copy it freely. It
 * may hold any numbers; those that don't belong together get MARSHDECK_STATE. */
typedef struct {
    uint32_t target;         /* Hz */
    uint32_t source;         /* Hz; 0 before a source rate was set */
    uint32_t num;            /* source over target in lowest terms */
    uint32_t den;
    uint32_t filt_len;       /* the filter's length, n */
    uint32_t mem_alloc_size; /* how many entries of mem are in use */
    uint32_t buffer_size;    /* 160 */
    uint32_t int_advance;    /* num over den, whole and rest */
    uint32_t frac_advance;
    float cutoff;            /* a NaN comes back as some NaN, not always with the same bits */
    uint32_t oversample;
    uint32_t started;        /* 1 once samples were processed; a reset leaves it */
    uint32_t kernel;         /* 0 none, 1 direct, 2 interpolated */
    uint32_t last_sample;    /* position: the entry of mem at which the next output's window starts */
    uint32_t samp_frac_num;  /* phase: how far past that entry the output lies, in den-ths */
    uint32_t magic_samples;  /* samples that a rate change left over in mem */
} marshdeck_state;

typedef struct {
    uint32_t refusal;      /* 0, or why the call is refused: then both counts are 0 */
    uint32_t consumed;     /* samples read from the input */
    uint32_t written;      /* samples written to the output */
    marshdeck_state state; /* for the next call; of a refused call the one that was given */
} marshdeck_answer;

/* A new state. Refusal 1; then all its numbers are 0. */
marshdeck_answer marshdeck_new(uint32_t target_hz);

/* Sets the source rate. Refusals 7, 1, 2, 3, in that order. The rate that is set already is accepted with
 * no look at the buffers. marshdeck_needed says how long they have to be; mem also never less than
 * state.mem_alloc_size. Entries past what is needed stay. A rate other than the one that is set puts the
 * position at filt_len / 2; in the middle of a stream its samples are carried over.
 *
 * mem and coefs belong to the state from here on: lend them unchanged to the calls that follow. Before the
 * first rate is set, any values may be in them. */
marshdeck_answer marshdeck_set_rate(marshdeck_state state, uint32_t source_hz,
                                    float *mem, size_t mem_len,
                                    float *coefs, size_t coefs_len);

/* Resamples: reads from in and writes to out until one of them is used up. Refusals 7, 6, 2, 3, 4, 5, in that
 * order. What was not consumed has to be offered again. Room for nothing (out_len 0) is accepted; an empty
 * input is refused. out keeps what it had past `written`.
 *
 * After a rate change what was left over in mem is played first, so a call may write and consume nothing:
 * consumed 0 does not mean the end. */
marshdeck_answer marshdeck_process(marshdeck_state state,
                                   float *mem, size_t mem_len,
                                   const float *coefs, size_t coefs_len,
                                   const float *in, size_t in_len,
                                   float *out, size_t out_len);

/* What is used of mem becomes 0, and so do position, phase and magic_samples; started stays. Refusals 7, 2.
 * For another recording at the same rates call marshdeck_skip next: set_rate leaves the position at
 * filt_len / 2, reset at 0, where the filter's run-in comes out too. For a recording at another rate begin
 * with marshdeck_new. */
marshdeck_answer marshdeck_reset(marshdeck_state state, float *mem, size_t mem_len);

/* Leaves out the filter's run-in: the position becomes filt_len / 2. Refusal 7. */
marshdeck_answer marshdeck_skip(marshdeck_state state);

/* x times 32768, to the nearest whole number, halves away from zero, clamped; NaN gives 0. */
int16_t marshdeck_to_i16(float x);

/* A sample divided by 32768, exactly. */
float marshdeck_from_i16(int16_t sample);

/* The sine that the coefficients are made with, of an angle in radians. Meant for angles up to 256 in size. An
 * infinity or a NaN gives a NaN, and may set errno. */
double marshdeck_sine(double angle);

typedef struct {
    uint32_t refusal; /* 0, MARSHDECK_RATE or MARSHDECK_TOO_MANY */
    uint64_t total;   /* 0 where refused */
} marshdeck_total;

/* How many samples a closed recording of m samples becomes: m * den / num, rounded up. It was begun with a new
 * state and its first rate, or with reset and then skip, and kept that rate; closed means that filt_len / 2
 * zeros were read after its samples. Refusals 1, 100, in that order. */
marshdeck_total marshdeck_closed_total(uint64_t m, uint32_t source_hz, uint32_t target_hz);

typedef struct {
    uint32_t refusal;      /* 0 or MARSHDECK_RATE */
    uint32_t history;      /* floats in mem for a new state; 0 where refused */
    uint32_t coefficients; /* floats in coefs; 0 where refused */
} marshdeck_sizes;

/* How long the buffers have to be for these two rates. */
marshdeck_sizes marshdeck_needed(uint32_t source_hz, uint32_t target_hz);

#ifdef __cplusplus
}
#endif
#endif
