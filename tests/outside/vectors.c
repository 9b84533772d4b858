/* Runs the requests of a vectors file against a face: vectors library|handmade|reference FILE.
   A line is: CALL name=value .. > CODE OBJECT BIT LENGTH name=value .., inputs on the left, outputs on the right.
   Bytes are lower-case hex, - if empty; a lent output is given whole, at entry on the left and at exit on the right. A
   state is KIND:v,v,.. or none, where the kind is the type, or 301 for the signal of catalogue 3.0; a standing is
   applied,late,gap,other. An element's catalogue is 1.0 if none is named. A listing's text is what the program
   prints: for a refusal, the line made from its numbers. backlog is receive_backlog. */
#include "faces.h"

#include <inttypes.h>
#include <stdbool.h>
#include <stdio.h>
#include <stdlib.h>
#include <string.h>

enum { WORDS_MOST = 16, GUARD = 16, GUARD_BYTE = 0xE7 };

/* One side of a line: its words in order. */
struct side {
    char *words[WORDS_MOST];
    size_t count;
};

static unsigned line_number;
static const char *call;
static bool line_good;

static void differs(const char *what)
{
    printf("line %u: %s: %s\n", line_number, call, what);
    line_good = false;
}

static void malformed(const char *what)
{
    fprintf(stderr, "line %u: malformed: %s\n", line_number, what);
    exit(2);
}

/* Values by name */

/* NULL if there is none. */
static const char *text_if_any(const struct side *side, const char *name)
{
    size_t len = strlen(name);
    for (size_t i = 0; i < side->count; i++)
        if (strncmp(side->words[i], name, len) == 0 && side->words[i][len] == '=')
            return side->words[i] + len + 1;
    return NULL;
}

static const char *text_of(const struct side *side, const char *name)
{
    const char *text = text_if_any(side, name);
    if (text == NULL)
        malformed(name);
    return text;
}

static uint32_t number_of(const struct side *side, const char *name)
{
    return (uint32_t)strtoull(text_of(side, name), NULL, 10);
}

/* Reads numbers with commas between; returns how many. */
static size_t numbers_in(const char *text, uint32_t *numbers, size_t most)
{
    size_t count = 0;
    for (;;) {
        char *end;
        if (count == most)
            malformed("too many numbers");
        numbers[count++] = (uint32_t)strtoull(text, &end, 10);
        if (*end != ',')
            return count;
        text = end + 1;
    }
}

/* A state's fields; returns its kind as a face numbers it, 31 for 301. */
static uint32_t state_in(const char *text, uint32_t *fields)
{
    char *values;
    uint32_t kind = (uint32_t)strtoul(text, &values, 10);
    if (*values != ':')
        malformed("state");
    numbers_in(values + 1, fields, 32);
    return kind == 301 ? 31 : kind;
}

/* Bytes with a guard before and after them */
struct lent {
    uint8_t *whole, *bytes;
    size_t len;
};

static struct lent lend(size_t len)
{
    struct lent lent = {malloc(len + 2 * GUARD), NULL, len};
    if (lent.whole == NULL)
        exit(2);
    memset(lent.whole, GUARD_BYTE, len + 2 * GUARD);
    lent.bytes = lent.whole + GUARD;
    return lent;
}

static unsigned nibble(char digit)
{
    const char *digits = "0123456789abcdef";
    const char *found = digit == '\0' ? NULL : strchr(digits, digit);
    if (found == NULL)
        malformed("hex");
    return (unsigned)(found - digits);
}

static struct lent bytes_of(const struct side *side, const char *name)
{
    const char *text = text_of(side, name);
    size_t len = strcmp(text, "-") == 0 ? 0 : strlen(text) / 2;
    struct lent lent = lend(len);
    for (size_t i = 0; i < len; i++)
        lent.bytes[i] = (uint8_t)(nibble(text[2 * i]) << 4 | nibble(text[2 * i + 1]));
    return lent;
}

static bool guarded(const struct lent *lent)
{
    for (size_t i = 0; i < GUARD; i++)
        if (lent->whole[i] != GUARD_BYTE || lent->bytes[lent->len + i] != GUARD_BYTE)
            return false;
    return true;
}

static void print_bytes(const char *what, const struct lent *lent)
{
    printf("  %s ", what);
    for (size_t i = 0; i < lent->len; i++)
        printf("%02x", lent->bytes[i]);
    printf("\n");
}

/* Compares what was lent with what is expected there at exit, and frees both. */
static void hold(struct lent lent, struct lent expected, const char *what)
{
    if (lent.len != expected.len || memcmp(lent.bytes, expected.bytes, lent.len) != 0) {
        differs(what);
        print_bytes("expected", &expected);
        print_bytes("found   ", &lent);
    }
    if (!guarded(&lent))
        differs("bytes outside a lent buffer are changed");
    free(lent.whole);
    free(expected.whole);
}

static void hold_numbers(const uint32_t *found, const uint32_t *expected, size_t count, const char *what)
{
    if (memcmp(found, expected, count * sizeof *found) == 0)
        return;
    differs(what);
    for (size_t i = 0; i < count; i++)
        if (found[i] != expected[i])
            printf("  number %zu: expected %" PRIu32 ", found %" PRIu32 "\n", i, expected[i], found[i]);
}

/* The calls */

static void run_label(const struct face *face, const struct side *in, const struct side *out, uint32_t *expected)
{
    uint32_t answer[8];
    struct lent table = bytes_of(in, "table");
    struct lent label = bytes_of(out, "label");
    memset(answer, 0xFF, sizeof answer);
    face->label(table.bytes, table.len, (uint16_t)number_of(in, "number"), answer);
    expected[5] = number_of(out, "offset");
    expected[6] = (uint32_t)label.len;
    hold_numbers(answer, expected, 8, "answer");
    if (line_good && memcmp(table.bytes + answer[5], label.bytes, label.len) != 0)
        differs("label");
    free(label.whole);
    hold(table, bytes_of(in, "table"), "table");
}

/* What the program prints is the text, or the line made from these numbers. */
static void hold_printed(const struct lent *text, const uint32_t *numbers)
{
    char line[64];
    size_t len = (size_t)snprintf(line, sizeof line, "refused %" PRIu32 " %" PRIu32 " %" PRIu32 "\n", numbers[0],
                                  numbers[1], numbers[2]);
    if (numbers[0] == 0 ? numbers[3] != text->len : len != text->len || memcmp(line, text->bytes, len) != 0)
        differs("text and numbers of the line");
}

/* The text with room to spare, with none to spare, one byte short, and with no room; a refusal is the same in each. */
static void run_listing(const struct face *face, const struct side *in, const struct side *out, const uint32_t *numbers)
{
    struct lent text = bytes_of(out, "text");
    const size_t rooms[] = {text.len + 3, text.len, text.len - 1, 0};
    hold_printed(&text, numbers);
    for (size_t i = 0; i < sizeof rooms / sizeof *rooms; i++) {
        uint32_t answer[8], expected[8];
        struct lent data = bytes_of(in, "data");
        struct lent written = lend(rooms[i]);
        struct lent expected_text = lend(rooms[i]);
        memset(answer, 0xFF, sizeof answer);
        memcpy(expected, numbers, sizeof expected);
        face->listing(data.bytes, data.len, written.bytes, written.len, answer);
        if (numbers[0] == 0 && rooms[i] < text.len)
            expected[0] = 21;
        else if (numbers[0] == 0)
            memcpy(expected_text.bytes, text.bytes, text.len);
        hold_numbers(answer, expected, 8, "answer");
        hold(written, expected_text, "text");
        hold(data, bytes_of(in, "data"), "data");
    }
    free(text.whole);
}

static void run_element(const struct face *face, const struct side *in, const uint32_t *expected)
{
    uint32_t answer[8];
    unsigned x = 1, y = 0;
    struct lent word = bytes_of(in, "word");
    const char *catalogue = text_if_any(in, "catalogue");
    if (catalogue != NULL && sscanf(catalogue, "%u.%u", &x, &y) != 2)
        malformed("catalogue");
    memset(answer, 0xFF, sizeof answer);
    face->check_element((uint8_t)x, (uint8_t)y, (uint8_t)number_of(in, "type"), word.bytes, word.len, answer);
    hold(word, bytes_of(in, "word"), "word");
    hold_numbers(answer, expected, 8, "answer");
}

static void run(const struct face *face, const struct side *in, const struct side *out)
{
    uint32_t answer[8], fields[32], standing[4];
    uint32_t expected[8] = {0}, expected_fields[32] = {0}, expected_standing[4] = {0};
    if (out->count < 4)
        malformed("answer");
    for (size_t i = 0; i < 4; i++)
        expected[i] = (uint32_t)strtoul(out->words[i], NULL, 10);
    if (strcmp(call, "listing") == 0) {
        run_listing(face, in, out, expected);
        return;
    }
    if (strcmp(call, "label") == 0) {
        run_label(face, in, out, expected);
        return;
    }

    if (strcmp(call, "check_element") == 0) {
        run_element(face, in, expected);
        return;
    }

    /* the others take a table and up to two more forms */
    memset(answer, 0xFF, sizeof answer);
    static const struct {
        const char *call, *first, *second;
        bool writes;
    } shapes[] = {
        {"check_table", NULL, NULL, false},    {"check_image", "image", NULL, false},
        {"check_list", "list", NULL, false},   {"read_state", "image", NULL, false},
        {"write_state", "image", NULL, true},  {"difference", "a", "b", true},
        {"apply", "image", "list", true},      {"join", "first", "second", true},
        {"turn_back", "list", NULL, true},     {"receive", "image", "list", true},
        {"backlog", "image", "lists", true},
    };
    size_t shape = 0;
    while (shape < sizeof shapes / sizeof *shapes && strcmp(call, shapes[shape].call) != 0)
        shape++;
    if (shape == sizeof shapes / sizeof *shapes)
        malformed("call");

    struct lent table = bytes_of(in, "table");
    struct lent first = shapes[shape].first ? bytes_of(in, shapes[shape].first) : lend(0);
    struct lent second = shapes[shape].second ? bytes_of(in, shapes[shape].second) : lend(0);
    struct lent output = shapes[shape].writes ? bytes_of(in, "out") : lend(0);
    const uint8_t *t = table.bytes, *f = first.bytes, *s = second.bytes;
    uint8_t *o = output.bytes;
    switch (shape) {
    case 0: face->check_table(t, table.len, answer); break;
    case 1: face->check_image(t, table.len, f, first.len, answer); break;
    case 2: face->check_list(t, table.len, f, first.len, answer); break;
    case 3: {
        const char *state = text_of(out, "state");
        memset(fields, 0xFF, sizeof fields);
        if (strcmp(state, "none") == 0)
            memcpy(expected_fields, fields, sizeof fields);
        else
            expected[5] = state_in(state, expected_fields);
        face->read_state(t, table.len, f, first.len, (uint16_t)number_of(in, "number"), fields, answer);
        hold_numbers(fields, expected_fields, 32, "fields");
        break;
    }
    case 4: {
        memset(fields, 0xFF, sizeof fields);
        uint32_t kind = state_in(text_of(in, "state"), fields);
        memcpy(expected_fields, fields, sizeof fields);
        face->write_state(t, table.len, f, first.len, (uint16_t)number_of(in, "number"), kind, fields,
                          number_of(in, "position"), o, output.len, answer);
        hold_numbers(fields, expected_fields, 32, "fields handed in");
        break;
    }
    case 5: face->difference(t, table.len, f, first.len, s, second.len, o, output.len, answer); break;
    case 6: face->apply(t, table.len, f, first.len, s, second.len, o, output.len, answer); break;
    case 7: face->join(t, table.len, f, first.len, s, second.len, o, output.len, answer); break;
    case 8: face->turn_back(t, table.len, f, first.len, o, output.len, answer); break;
    case 9:
    case 10:
        numbers_in(text_of(in, "standing"), standing, 4);
        numbers_in(text_of(out, "standing"), expected_standing, 4);
        if (shape == 9) {
            face->receive(t, table.len, f, first.len, s, second.len, o, output.len, standing, answer);
        } else {
            expected[5] = number_of(out, "taken");
            face->receive_backlog(t, table.len, f, first.len, s, second.len, o, output.len, standing, answer);
        }
        hold_numbers(standing, expected_standing, 4, "standing");
        break;
    }
    hold_numbers(answer, expected, 8, "answer");
    hold(table, bytes_of(in, "table"), "table");
    hold(first, shapes[shape].first ? bytes_of(in, shapes[shape].first) : lend(0), "first form");
    hold(second, shapes[shape].second ? bytes_of(in, shapes[shape].second) : lend(0), "second form");
    hold(output, shapes[shape].writes ? bytes_of(out, "out") : lend(0), "output");
}

/* Splits a line at its spaces and at the arrow. */
static void split(char *line, struct side *in, struct side *out)
{
    struct side *side = in;
    in->count = out->count = 0;
    for (char *word = strtok(line, " \n"); word != NULL; word = strtok(NULL, " \n")) {
        if (strcmp(word, ">") == 0)
            side = out;
        else if (side->count < WORDS_MOST)
            side->words[side->count++] = word;
    }
    if (side == in || in->count == 0)
        malformed("no answer");
}

int main(int argc, char **argv)
{
    const struct face *face = argc == 3 ? face_named(argv[1]) : NULL;
    if (face == NULL) {
        fprintf(stderr, "usage: vectors library|handmade|reference FILE\n");
        return 2;
    }
    FILE *file = fopen(argv[2], "r");
    if (file == NULL) {
        perror(argv[2]);
        return 2;
    }
    char *line = NULL;
    size_t capacity = 0;
    unsigned passed = 0, failed = 0;
    while (getline(&line, &capacity, file) > 0) {
        struct side in, out;
        line_number++;
        line_good = true;
        split(line, &in, &out);
        call = in.words[0];
        run(face, &in, &out);
        if (line_good)
            passed++;
        else
            failed++;
    }
    free(line);
    fclose(file);
    printf("%s, %s: %u passed, %u failed\n", argv[2], face->name, passed, failed);
    return failed != 0 || passed == 0;
}
