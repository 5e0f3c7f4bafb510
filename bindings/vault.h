/*
 * The text shelf from C: fingerprints of texts, read-back, and scripts on a marked shelf.
 *
 * Every pointer is valid for the length behind it and not null, even where that length is 0, and no input overlaps the
 * output. Nothing else is asked of a caller.
 *
 * An answer is written at the start of out. What lies behind it keeps its bytes, and a refused call leaves all of out as
 * it was. Where several refusals hold, the least number is answered.
 */
#ifndef VAULT_H
#define VAULT_H

#include <stddef.h>
#include <stdint.h>

#ifdef __cplusplus
extern "C" {
#endif

/* Why a call was refused; docs/REFUSALS.md has all numbers of the shelf. */
enum vault_refusal {
    VAULT_DONE = 0,            /* not refused */
    VAULT_BAD_PART = 6,        /* a part from..to without from <= to <= length */
    VAULT_TOO_LONG = 7,        /* a script of more than VAULT_MOST_SCRIPT bytes */
    VAULT_SMALL_BUFFER = 8,    /* out is too short for the call */
    VAULT_BAD_FINGERPRINT = 9, /* no well-formed fingerprint in 32 lower-case hexadecimal digits */
    VAULT_NO_WINDOW = 10       /* no window of at most five bytes gives the fingerprint */
};

/* Lengths in bytes. */
enum vault_length {
    VAULT_FINGERPRINT_BYTES = 16,
    VAULT_FINGERPRINT_DIGITS = 32,
    VAULT_MOST_WINDOW = 5,    /* the longest window, and the least room for one */
    VAULT_MOST_ANSWER = 4102, /* the longest answer to a call of a script, and the least room for one */
    VAULT_MOST_SCRIPT = 16384
};

/* len bytes were written at the start of out; 0 where refused. */
typedef struct {
    uint32_t refusal;
    size_t len;
} vault_answer;

/* The same, and the place in the script behind the last call that was run; 0 where refused. */
typedef struct {
    uint32_t refusal;
    size_t len;
    size_t next;
} vault_run;

/*
 * Writes the fingerprint of a text: its sixteen bytes, or its 32 lower-case hexadecimal digits with no 0 byte behind them.
 * Refused with 8 where out_len is below 16, or below 32.
 */
vault_answer vault_fingerprint_bytes(const uint8_t *text, size_t text_len, uint8_t *out, size_t out_len);
vault_answer vault_fingerprint_digits(const uint8_t *text, size_t text_len, uint8_t *out, size_t out_len);

/*
 * Writes the window of at most five bytes that, in the place of the part from..to of text, gives the text the
 * fingerprint with these digits. There is at most one. The bytes of the part itself do not matter.
 * Refused with 6, 8 (out_len is below 5), 9 and 10.
 */
vault_answer vault_read_back(const uint8_t *text, size_t text_len, size_t from, size_t to,
                             const uint8_t *digits, size_t digits_len, uint8_t *out, size_t out_len);

/*
 * Runs a script (docs/SCRIPTS.md) on a fresh marked shelf with 1,024 records, 16,384 bytes for added text, 64 places and
 * an empty build text, call by call while at least 4,102 bytes are left in out. The answers stand one behind the other.
 * next is the script's length where every call was run. A run that was cut short is not resumed: run the script again,
 * with more room.
 * Uses less than 100 KiB of stack. Refused with 7 and 8 (out_len is below 4,102).
 */
vault_run vault_run_script(const uint8_t *script, size_t script_len, uint8_t *out, size_t out_len);

#ifdef __cplusplus
}
#endif

#endif
