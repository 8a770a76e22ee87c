/* Sanqizhet for C and C++: link target/staticlib/libc_api.a. docs/LINKING.md says what each call
 * answers. The four calls keep nothing: each is handed the rules text and the log text as bytes,
 * and answers by value. NULL stands for no bytes, whatever length is said beside it. */
#ifndef SANQIZHET_H
#define SANQIZHET_H

#include <stddef.h>
#include <stdint.h>

#ifdef __cplusplus
extern "C" {
#endif

/* The library is built for machines with 64-bit sizes. */
typedef char sanqizhet_sizes_have_64_bits[sizeof(size_t) == 8 ? 1 : -1];

/* Limits. An output of SANQIZHET_CERTIFICATE_BYTES is never too short. */
enum {
    SANQIZHET_TEXT_BYTES = 16384,
    SANQIZHET_TABLE_LINES = 32,
    SANQIZHET_LOG_ROWS = 128,
    SANQIZHET_NODE_BYTES = 6,
    SANQIZHET_CERTIFICATE_BYTES = 24576
};

/* sanqizhet_refusal.number: 0, or the number of the first question that is answered no. */
enum {
    SANQIZHET_ACCEPTED = 0,
    SANQIZHET_TABLE_FULL = 1,
    SANQIZHET_UNKNOWN_KIND = 2,
    SANQIZHET_NO_SUCH_MARK = 3,
    SANQIZHET_OPERAND_NOT_EARLIER = 4,
    SANQIZHET_WINDOW_REVERSED = 5,
    SANQIZHET_UNTIL_ENDLESS = 6,
    SANQIZHET_TIME_FALLS = 7,
    SANQIZHET_LOG_FULL = 8,
    SANQIZHET_NOT_WHOLE_NODES = 11,
    SANQIZHET_CERTIFICATE_TOO_LONG = 12,
    SANQIZHET_NODE_NO_SUCH_LINE = 14,
    SANQIZHET_NODE_RULE_OF_OTHER_KIND = 15,
    SANQIZHET_NODE_NO_SUCH_ROW = 16,
    SANQIZHET_NODE_WRONG_COUNT = 17,
    SANQIZHET_NODE_WRONG_CHILD = 18,
    SANQIZHET_NODE_CONDITION_NOT_MET = 19,
    SANQIZHET_NOT_ONE_LEFT = 20,
    SANQIZHET_NO_SUCH_LINE = 21,
    SANQIZHET_NO_SUCH_ROW = 22,
    SANQIZHET_OPEN = 24,
    SANQIZHET_TOO_MANY_NODES = 25,
    SANQIZHET_OUTPUT_SHORT = 26,
    SANQIZHET_TEXT_TOO_LONG = 27,
    SANQIZHET_WRONG_BYTE = 28,
    SANQIZHET_WRONG_NAMES = 29,
    SANQIZHET_WRONG_FIELDS = 30,
    SANQIZHET_WRONG_FORM = 31
};

/* sanqizhet_refusal.text: the text in which the fault stands. */
enum {
    SANQIZHET_NO_TEXT = 0,
    SANQIZHET_RULES_TEXT = 1,
    SANQIZHET_LOG_TEXT = 2
};

/* sanqizhet_refusal.layer: what refuses the text: itself (27 to 31), the table (1 to 6), the log (7
 * and 8). */
enum {
    SANQIZHET_NO_LAYER = 0,
    SANQIZHET_TEXT_LAYER = 1,
    SANQIZHET_TABLE_LAYER = 2,
    SANQIZHET_LOG_LAYER = 3
};

/* The ruling of a line at a row. */
enum {
    SANQIZHET_NO_RULING = 0,
    SANQIZHET_HELD = 1,
    SANQIZHET_BROKEN = 2
};

/* Why a call is refused, and where the fault stands. What there is nothing to tell of is 0. */
struct sanqizhet_refusal {
    uint32_t number; /* 0: accepted */
    uint32_t text;
    uint32_t layer;
    size_t line;  /* of the text, from 1 */
    size_t field; /* of the line, from 1 */
    size_t node;  /* of the certificate, from 0 */
};

struct sanqizhet_read_answer {
    struct sanqizhet_refusal refusal;
    size_t count; /* lines or rows read; where the text is refused, those before the fault */
};

struct sanqizhet_check_answer {
    struct sanqizhet_refusal refusal;
    uint32_t line; /* the claim: the line, the row and the ruling of the last node */
    uint32_t row;
    uint32_t ruling;
};

struct sanqizhet_settle_answer {
    struct sanqizhet_refusal refusal;
    uint32_t ruling;
    uint32_t size; /* nodes of the shortest certificate: six bytes each */
};

/* The functions of the library. No pointer may be NULL; call the functions below instead, which see
 * to that. */
struct sanqizhet_read_answer sanqizhet_read_rules_nonnull(const uint8_t *text, size_t text_bytes);
struct sanqizhet_read_answer sanqizhet_read_log_nonnull(const uint8_t *text, size_t text_bytes);
struct sanqizhet_check_answer
sanqizhet_check_nonnull(const uint8_t *rules, size_t rules_bytes, const uint8_t *log,
                        size_t log_bytes, const uint8_t *certificate, size_t certificate_bytes);
struct sanqizhet_settle_answer
sanqizhet_settle_nonnull(const uint8_t *rules, size_t rules_bytes, const uint8_t *log,
                         size_t log_bytes, size_t line, size_t row, uint8_t *out, size_t out_bytes);

/* Reads a rules text, and tells how many lines its table has. NULL is refused with 28 at line 1. */
static inline struct sanqizhet_read_answer
sanqizhet_read_rules(const uint8_t *text, size_t text_bytes)
{
    const uint8_t none = 0;
    return sanqizhet_read_rules_nonnull(text ? text : &none, text ? text_bytes : 0);
}

/* Reads a log text, and tells how many rows it has. NULL is refused with 28 at line 1. */
static inline struct sanqizhet_read_answer
sanqizhet_read_log(const uint8_t *text, size_t text_bytes)
{
    const uint8_t none = 0;
    return sanqizhet_read_log_nonnull(text ? text : &none, text ? text_bytes : 0);
}

/* Checks a certificate on the table and the rows of the two texts, and tells the claim that it
 * proves. A text that is NULL is refused with 28 at line 1, a certificate that is NULL with 11. */
static inline struct sanqizhet_check_answer
sanqizhet_check(const uint8_t *rules, size_t rules_bytes, const uint8_t *log, size_t log_bytes,
                const uint8_t *certificate, size_t certificate_bytes)
{
    const uint8_t none = 0;
    return sanqizhet_check_nonnull(
        rules ? rules : &none, rules ? rules_bytes : 0, log ? log : &none, log ? log_bytes : 0,
        certificate ? certificate : &none, certificate ? certificate_bytes : 0);
}

/* Settles a line at a row, and writes its shortest certificate to the front of out. A refused call
 * leaves out as it was. A text that is NULL is refused with 28 at line 1, an out that is NULL with
 * 26, unless a text's refusal or 21 to 25 comes first. out may not overlap a text. */
static inline struct sanqizhet_settle_answer
sanqizhet_settle(const uint8_t *rules, size_t rules_bytes, const uint8_t *log, size_t log_bytes,
                 size_t line, size_t row, uint8_t *out, size_t out_bytes)
{
    const uint8_t none = 0;
    uint8_t nowhere = 0;
    return sanqizhet_settle_nonnull(rules ? rules : &none, rules ? rules_bytes : 0,
                                    log ? log : &none, log ? log_bytes : 0, line, row,
                                    out ? out : &nowhere, out ? out_bytes : 0);
}

#ifdef __cplusplus
}
#endif

#endif
