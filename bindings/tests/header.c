/* vault.h from C: each function, its refusals and the worked figures of the documents. Prints how many checks it ran. */
#include "vault.h"

#include <stdio.h>
#include <string.h>

static int checks, failures;

#define CHECK(holds) check((holds), #holds, __LINE__)

static void check(int holds, const char *what, int line) {
    checks++;
    if (!holds) {
        failures++;
        fprintf(stderr, "header.c:%d: not so: %s\n", line, what);
    }
}

/* Larger than any answer here, and full of one byte before each call. */
static uint8_t out[2 * VAULT_MOST_ANSWER];
enum { NOISE = 0xa5 };

static void fresh(void) {
    memset(out, NOISE, sizeof out);
}

/* out begins with so many bytes of a text, and is untouched behind them. */
static int holds(const char *text, size_t len) {
    size_t place;
    for (place = len; place < sizeof out; place++) {
        if (out[place] != NOISE) {
            return 0;
        }
    }
    return memcmp(out, text, len) == 0;
}

static const uint8_t *bytes(const char *text) {
    return (const uint8_t *)text;
}

static int done(vault_answer answer, const char *expected, size_t len) {
    return answer.refusal == VAULT_DONE && answer.len == len && holds(expected, len);
}

static int refused(vault_answer answer, uint32_t refusal) {
    return answer.refusal == refusal && answer.len == 0 && holds("", 0);
}

static vault_answer digits_of(const char *text) {
    fresh();
    return vault_fingerprint_digits(bytes(text), strlen(text), out, sizeof out);
}

static vault_answer bytes_of(const char *text, size_t room) {
    fresh();
    return vault_fingerprint_bytes(bytes(text), strlen(text), out, room);
}

static vault_answer window_of(const char *text, size_t from, size_t to, const char *digits, size_t room) {
    fresh();
    return vault_read_back(bytes(text), strlen(text), from, to, bytes(digits), strlen(digits), out, room);
}

static vault_run run(const char *script, size_t len, size_t room) {
    fresh();
    return vault_run_script(bytes(script), len, out, room);
}

/* A whole script has these answers. */
static int answers(const char *script, const char *expected) {
    vault_run end = run(script, strlen(script), sizeof out);
    return end.refusal == VAULT_DONE && end.len == strlen(expected) && end.next == strlen(script) &&
           holds(expected, end.len);
}

static int run_refused(vault_run end, uint32_t refusal) {
    return end.refusal == refusal && end.len == 0 && end.next == 0 && holds("", 0);
}

int main(void) {
    static char long_script[VAULT_MOST_SCRIPT + 1];
    const char *nothing = "00000001000000000000000000000001";
    const char *aa = "0000018f0000014500000113000000e0";
    vault_run end;

    CHECK(done(digits_of(""), nothing, 32));
    CHECK(done(digits_of("U"), "0000002200000015000000150000000d", 32));
    CHECK(done(digits_of("a"), "000000100000000d0000000b00000009", 32));
    CHECK(done(digits_of("ab"), "0000014500000240000000e00000018d", 32));
    CHECK(done(digits_of("ba"), "000001cd000001780000014000000105", 32));
    CHECK(done(digits_of("aa"), aa, 32));
    CHECK(done(digits_of("UUUUU"), "09de8d6d06197ecb06197ecb03c50ea2", 32));
    fresh();
    CHECK(refused(vault_fingerprint_digits(bytes("a"), 1, out, 31), VAULT_SMALL_BUFFER));

    CHECK(done(bytes_of("a", 16), "\0\0\0\20\0\0\0\15\0\0\0\13\0\0\0\11", 16));
    CHECK(done(bytes_of("", sizeof out), "\0\0\0\1\0\0\0\0\0\0\0\0\0\0\0\1", 16));
    CHECK(refused(bytes_of("a", 15), VAULT_SMALL_BUFFER));
    CHECK(refused(bytes_of("", 0), VAULT_SMALL_BUFFER));

    CHECK(done(window_of("a", 1, 1, aa, 5), "a", 1));
    CHECK(done(window_of("", 0, 0, nothing, 5), "", 0));
    CHECK(done(window_of("x", 0, 1, "09de8d6d06197ecb06197ecb03c50ea2", 5), "UUUUU", 5));
    CHECK(refused(window_of("a", 1, 1, nothing, 5), VAULT_NO_WINDOW));
    CHECK(refused(window_of("a", 1, 1, "0000018F0000014500000113000000E0", 5), VAULT_BAD_FINGERPRINT));
    CHECK(refused(window_of("a", 1, 1, "", 5), VAULT_BAD_FINGERPRINT));
    CHECK(refused(window_of("a", 1, 1, "", 4), VAULT_SMALL_BUFFER));
    CHECK(refused(window_of("a", 1, 0, "", 4), VAULT_BAD_PART));
    CHECK(refused(window_of("a", 0, 2, aa, 5), VAULT_BAD_PART));
    CHECK(refused(window_of("a", (size_t)-1, (size_t)-1, aa, 5), VAULT_BAD_PART));

    CHECK(answers("", ""));
    CHECK(answers("11:3:put,2:ab,,11:4:mark,1:1,,18:3:cut,1:9,1:0,1:0,,",
                  "1:1,32:0000014500000240000000e00000018d,5:-5@30,"));
    CHECK(answers("11:3:put,2:ab,,25:6:splice,1:1,1:1,1:1,1:1,,11:4:text,1:2,,", "1:1,1:2,4:aabb,"));
    CHECK(answers("02:ab,", "4:-1@0,"));
    CHECK(answers("6:3:put,,", "4:-2@0,"));
    CHECK(answers("12:4:mark,2:01,,", "4:-2@0,"));
    CHECK(answers("18:4:mark,8:10000000,,", "4:-2@0,"));
    CHECK(answers("11:3:put,2:ab;9:3:put,0:,,", "4:-1@0,"));
    CHECK(answers("9:3:put,0:,,12:3:put,2:ab,", "1:1,5:-1@12,"));

    end = run("9:3:put,0:,,9:3:put,0:,,", 24, VAULT_MOST_ANSWER + 3);
    CHECK(end.refusal == VAULT_DONE && end.len == 4 && end.next == 12 && holds("1:1,", 4));
    CHECK(run_refused(run("", 0, VAULT_MOST_ANSWER - 1), VAULT_SMALL_BUFFER));
    CHECK(run_refused(run(long_script, sizeof long_script, sizeof out), VAULT_TOO_LONG));
    CHECK(run_refused(run(long_script, sizeof long_script, 0), VAULT_TOO_LONG));
    end = run(long_script, VAULT_MOST_SCRIPT, sizeof out);
    CHECK(end.refusal == VAULT_DONE && end.len == 7 && end.next == VAULT_MOST_SCRIPT && holds("4:-1@0,", 7));

    printf("cases: %d checks of vault.h from C\n", checks);
    return failures != 0 || checks != 36;
}
