/* example SOURCE TARGET: resamples a recording from SOURCE Hz to TARGET Hz. Standard input has its samples, signed 16-bit,
 * little-endian, one channel; standard output gets those that they become.
 *
 * The recording is closed with half a filter length of zeros, so that it ends where it should, and its count is held to what
 * marshdeck_closed_total tells. Equal rates copy. A last odd byte is dropped, with a word on standard error. Where
 * something goes wrong standard error says what, and the status is 1. */
#include "marshdeck.h"

#include <errno.h>
#include <stdio.h>
#include <stdlib.h>
#include <string.h>

/* The most samples that are offered in one call, and its room. Any numbers from 1 to MARSHDECK_MAX_CALL would do. */
#define BLOCK 1024

/* A recording on its way. The buffers are long enough for any two rates; marshdeck_needed tells what just two of them need. */
typedef struct {
    marshdeck_state state;
    float mem[MARSHDECK_MAX_HISTORY];
    float coefs[MARSHDECK_MAX_COEFFICIENTS];
    int copies;       /* whether the rates are equal */
    uint64_t samples; /* read so far, without the zeros at the end */
    uint64_t outputs; /* written so far */
} recording;

static int failed(const char *what)
{
    fprintf(stderr, "example: %s\n", what);
    return 0;
}

static int failed_by_system(const char *what)
{
    fprintf(stderr, "example: %s: %s\n", what, strerror(errno));
    return 0;
}

static int refused(const char *what, uint32_t refusal)
{
    fprintf(stderr, "example: %s: refused %lu\n", what, (unsigned long)refusal);
    return 0;
}

/* A rate is decimal digits and nothing else. Whether it is in limits the resampler judges. */
static int read_rate(const char *text, uint32_t *hz)
{
    unsigned long number;
    if (text[0] == '\0' || text[strspn(text, "0123456789")] != '\0') {
        return failed("a rate is a number of Hz, in digits");
    }
    errno = 0;
    number = strtoul(text, NULL, 10);
    if (errno != 0 || number > UINT32_MAX) {
        return refused("a rate", MARSHDECK_RATE);
    }
    *hz = (uint32_t)number;
    return 1;
}

static int start(recording *r, uint32_t source_hz, uint32_t target_hz)
{
    marshdeck_answer answer = marshdeck_new(target_hz);
    if (answer.refusal != MARSHDECK_ACCEPTED) {
        return refused("the target rate", answer.refusal);
    }
    answer = marshdeck_set_rate(answer.state, source_hz, r->mem, MARSHDECK_MAX_HISTORY, r->coefs,
                                MARSHDECK_MAX_COEFFICIENTS);
    if (answer.refusal != MARSHDECK_ACCEPTED) {
        return refused("the source rate", answer.refusal);
    }
    r->state = answer.state;
    r->copies = source_hz == target_hz;
    r->samples = 0;
    r->outputs = 0;
    return 1;
}

/* Writes at most BLOCK samples. */
static int write_samples(recording *r, const float *out, size_t count)
{
    unsigned char bytes[2 * BLOCK];
    size_t i;
    for (i = 0; i < count; i++) {
        uint16_t sample = (uint16_t)marshdeck_to_i16(out[i]);
        bytes[2 * i] = (unsigned char)(sample & 0xff);
        bytes[2 * i + 1] = (unsigned char)(sample >> 8);
    }
    if (fwrite(bytes, 2, count, stdout) != count) {
        return failed_by_system("standard output");
    }
    r->outputs += count;
    return 1;
}

/* Resamples all of the input. A call may leave some of it unread, because its room is full: that is offered again. */
static int feed(recording *r, const float *in, size_t count)
{
    float out[BLOCK];
    size_t read = 0;
    while (read < count) {
        marshdeck_answer answer =
            marshdeck_process(r->state, r->mem, MARSHDECK_MAX_HISTORY, r->coefs, MARSHDECK_MAX_COEFFICIENTS,
                              in + read, count - read, out, BLOCK);
        if (answer.refusal != MARSHDECK_ACCEPTED) {
            return refused("a block of samples", answer.refusal);
        }
        r->state = answer.state;
        read += answer.consumed;
        if (!write_samples(r, out, answer.written)) {
            return 0;
        }
    }
    return 1;
}

/* Takes in at most BLOCK samples of the recording. */
static int take(recording *r, const unsigned char *bytes, size_t count)
{
    float in[BLOCK];
    size_t i;
    for (i = 0; i < count; i++) {
        int sample = bytes[2 * i] | bytes[2 * i + 1] << 8;
        in[i] = marshdeck_from_i16((int16_t)(sample < 0x8000 ? sample : sample - 0x10000));
    }
    r->samples += count;
    return r->copies ? write_samples(r, in, count) : feed(r, in, count);
}

/* Reads standard input to its end. fread gives less than a block only there, or where it cannot read on: that is asked at
 * once, while errno still tells why. */
static int take_all(recording *r)
{
    unsigned char bytes[2 * BLOCK];
    size_t got;
    do {
        got = fread(bytes, 1, sizeof bytes, stdin);
        if (ferror(stdin)) {
            return failed_by_system("standard input");
        }
        if (!take(r, bytes, got / 2)) {
            return 0;
        }
    } while (got == sizeof bytes);
    if (got % 2 != 0) {
        fputs("example: standard input ends with half a sample, which is dropped\n", stderr);
    }
    return 1;
}

/* The zeros that close a recording. One that is copied needs none. */
static int close_recording(recording *r)
{
    static const float zeros[BLOCK] = {0};
    size_t left = r->copies ? 0 : r->state.filt_len / 2;
    while (left > 0) {
        size_t count = left < BLOCK ? left : BLOCK;
        if (!feed(r, zeros, count)) {
            return 0;
        }
        left -= count;
    }
    return 1;
}

static int has_its_total(const recording *r, uint32_t source_hz, uint32_t target_hz)
{
    marshdeck_total told = marshdeck_closed_total(r->samples, source_hz, target_hz);
    if (told.refusal != MARSHDECK_ACCEPTED) {
        return refused("the count of samples", told.refusal);
    }
    if (told.total != r->outputs) {
        return failed("the recording came out longer or shorter than was told");
    }
    return 1;
}

/* What is still buffered may fail to be written too. */
static int flush_output(void)
{
    return fflush(stdout) == 0 ? 1 : failed_by_system("standard output");
}

int main(int argc, char **argv)
{
    static recording r;
    uint32_t source_hz;
    uint32_t target_hz;
    if (argc != 3) {
        fputs("usage: example SOURCE TARGET <samples >resampled\n", stderr);
        return EXIT_FAILURE;
    }
    if (read_rate(argv[1], &source_hz) && read_rate(argv[2], &target_hz) && start(&r, source_hz, target_hz) &&
        take_all(&r) && close_recording(&r) && has_its_total(&r, source_hz, target_hz) && flush_output()) {
        return EXIT_SUCCESS;
    }
    return EXIT_FAILURE;
}
