/* A controller's part: it settles the last rule at row 3 of a log, and checks the certificate as
 * the workshop does. The input is a rules text, an empty line and a log text. */
#include <stdio.h>

#include "sanqizhet.h"

enum {
    ROW = 3
};

/* A part of the input, or of a certificate. */
struct bytes {
    const uint8_t *at;
    size_t length;
};

static const char *ruling_name(uint32_t ruling)
{
    switch (ruling) {
    case SANQIZHET_HELD:
        return "held";
    case SANQIZHET_BROKEN:
        return "broken";
    default:
        return "not ruled";
    }
}

static const char *layer_name(uint32_t layer)
{
    switch (layer) {
    case SANQIZHET_TABLE_LAYER:
        return "the table";
    case SANQIZHET_LOG_LAYER:
        return "the log";
    default:
        return "the text";
    }
}

/* Prints why a call is refused, and where the fault stands. */
static void print_refusal(const char *what, struct sanqizhet_refusal refusal)
{
    printf("%s: ", what);
    if (refusal.number == SANQIZHET_ACCEPTED)
        printf("accepted\n");
    else if (refusal.text != SANQIZHET_NO_TEXT)
        printf("refused with %u by %s, %s text, line %zu, field %zu\n", (unsigned)refusal.number,
               layer_name(refusal.layer), refusal.text == SANQIZHET_RULES_TEXT ? "rules" : "log",
               refusal.line, refusal.field);
    else if (refusal.number >= SANQIZHET_NODE_NO_SUCH_LINE &&
             refusal.number <= SANQIZHET_NOT_ONE_LEFT)
        printf("refused with %u at node %zu\n", (unsigned)refusal.number, refusal.node);
    else
        printf("refused with %u\n", (unsigned)refusal.number);
}

static void print_claim(const char *what, struct sanqizhet_check_answer answer)
{
    if (answer.refusal.number != SANQIZHET_ACCEPTED)
        print_refusal(what, answer.refusal);
    else
        printf("%s: line %u at row %u %s\n", what, (unsigned)answer.line, (unsigned)answer.row,
               ruling_name(answer.ruling));
}

static void print_hexadecimal(struct bytes bytes)
{
    for (size_t i = 0; i < bytes.length; i++)
        printf("%s%02x", i == 0 ? "" : " ", bytes.at[i]);
    printf("\n");
}

/* Splits the input at its first empty line, which belongs to neither text. */
static void split(struct bytes input, struct bytes *rules, struct bytes *log)
{
    size_t end = 0;
    while (end < input.length &&
           !(input.at[end] == '\n' && (end == 0 || input.at[end - 1] == '\n')))
        end++;
    size_t begin = end < input.length ? end + 1 : end;
    *rules = (struct bytes){input.at, end};
    *log = (struct bytes){input.at + begin, input.length - begin};
}

/* Settles the last line at the row and checks the certificate that is written; the certificate is
 * empty if any of it is refused. */
static struct bytes certify(struct bytes rules, struct bytes log, uint8_t *out, size_t out_length)
{
    const struct bytes none = {NULL, 0};

    struct sanqizhet_read_answer table = sanqizhet_read_rules(rules.at, rules.length);
    struct sanqizhet_read_answer rows = sanqizhet_read_log(log.at, log.length);
    print_refusal("rules text", table.refusal);
    print_refusal("log text", rows.refusal);
    if (table.refusal.number != SANQIZHET_ACCEPTED || rows.refusal.number != SANQIZHET_ACCEPTED ||
        table.count == 0)
        return none;
    printf("%zu lines, %zu rows\n", table.count, rows.count);

    struct sanqizhet_settle_answer settled = sanqizhet_settle(
        rules.at, rules.length, log.at, log.length, table.count - 1, ROW, out, out_length);
    if (settled.refusal.number != SANQIZHET_ACCEPTED) {
        print_refusal("settled", settled.refusal);
        return none;
    }
    printf("settled: %s by %u nodes\n", ruling_name(settled.ruling), (unsigned)settled.size);
    struct bytes certificate = {out, (size_t)settled.size * SANQIZHET_NODE_BYTES};
    print_hexadecimal(certificate);

    struct sanqizhet_check_answer checked = sanqizhet_check(
        rules.at, rules.length, log.at, log.length, certificate.at, certificate.length);
    print_claim("certificate", checked);
    if (checked.refusal.number != SANQIZHET_ACCEPTED || checked.line != table.count - 1 ||
        checked.row != ROW || checked.ruling != settled.ruling)
        return none;
    return certificate;
}

/* A certificate with one damaged byte, a text with a fault, and NULL for bytes; 0 if each is
 * refused as it should be. */
static int refusals(struct bytes rules, struct bytes log, struct bytes damaged)
{
    static const uint8_t faulty[] = "line kind from to left right\n0 m - - 0 -\n1 m - - 01 -\n";

    struct sanqizhet_check_answer damage =
        sanqizhet_check(rules.at, rules.length, log.at, log.length, damaged.at, damaged.length);
    print_claim("damaged certificate", damage);

    /* A fault of a text is told with its place, by every call that is handed the text. */
    struct sanqizhet_check_answer fault =
        sanqizhet_check(faulty, sizeof faulty - 1, log.at, log.length, damaged.at, damaged.length);
    print_claim("faulty rules", fault);

    /* NULL stands for no bytes, whatever length is said. */
    struct sanqizhet_read_answer no_rules = sanqizhet_read_rules(NULL, 100);
    print_refusal("no rules", no_rules.refusal);
    struct sanqizhet_check_answer no_certificate =
        sanqizhet_check(rules.at, rules.length, log.at, log.length, NULL, 18);
    print_claim("no certificate", no_certificate);
    struct sanqizhet_settle_answer no_output = sanqizhet_settle(
        rules.at, rules.length, log.at, log.length, 0, ROW, NULL, SANQIZHET_CERTIFICATE_BYTES);
    print_refusal("no output", no_output.refusal);

    return damage.refusal.number != SANQIZHET_NODE_RULE_OF_OTHER_KIND ||
           damage.refusal.node != damaged.length / SANQIZHET_NODE_BYTES - 1 ||
           fault.refusal.number != SANQIZHET_WRONG_FORM ||
           fault.refusal.text != SANQIZHET_RULES_TEXT || fault.refusal.line != 3 ||
           fault.refusal.field != 5 || no_rules.refusal.number != SANQIZHET_WRONG_BYTE ||
           no_certificate.refusal.number != SANQIZHET_NOT_WHOLE_NODES ||
           no_output.refusal.number != SANQIZHET_OUTPUT_SHORT;
}

int main(int argc, char **argv)
{
    static uint8_t input[2 * SANQIZHET_TEXT_BYTES + 1];
    static uint8_t out[SANQIZHET_CERTIFICATE_BYTES];
    struct bytes rules, log;

    FILE *file = argc == 2 ? fopen(argv[1], "rb") : NULL;
    if (!file) {
        fprintf(stderr, "usage: controller FILE\n");
        return 2;
    }
    size_t length = fread(input, 1, sizeof input, file);
    fclose(file);
    split((struct bytes){input, length}, &rules, &log);

    struct bytes certificate = certify(rules, log, out, sizeof out);
    if (certificate.length == 0)
        return 1;
    /* The rule of the last node: with this bit it is none of any kind. */
    out[certificate.length - 5] ^= 0x20;
    return refusals(rules, log, certificate);
}
