/* The difference of two images taken, applied and received, a state read from the result, and the result listed.
   The table and the images A and B are those of README.md, under "A join". */
#include "shefumbari.h"

#include <inttypes.h>
#include <stdio.h>

enum { CODE, OBJECT, BIT, LENGTH, KIND = 5 };

static const uint8_t table[] = {0x00, 0x00, 0x00, 0x14, 0x01, 0x01, 0x00, 0x00, 0x02, 0x04, 0x06, 0x41,
                                0x41, 0x3A, 0x43, 0x56, 0x31, 0x02, 0x05, 0x41, 0x41, 0x3A, 0x53, 0x31};
static const uint8_t a[] = {0x00, 0x00, 0x00, 0x0A, 0x01, 0x01, 0x00, 0x00, 0x00, 0x00, 0x07, 0x00, 0x01, 0x03};
static const uint8_t b[] = {0x00, 0x00, 0x00, 0x0A, 0x01, 0x01, 0x00, 0x00, 0x00, 0x00, 0x08, 0x00, 0x31, 0x03};

static void show(const char *what, const uint8_t *bytes, size_t len, const uint32_t *answer)
{
    printf("%s: code %" PRIu32 ", object %" PRIu32 ", bit %" PRIu32 ", length %" PRIu32 "\n", what, answer[CODE],
           answer[OBJECT], answer[BIT], answer[LENGTH]);
    for (size_t i = 0; i < len; i++)
        printf("%s%02X", i == 0 ? "  " : " ", bytes[i]);
    if (len != 0)
        printf("\n");
}

int main(void)
{
    uint8_t list[64], image[64], text[256];
    uint32_t answer[8], fields[32], standing[4] = {0};

    shefumbari_difference(table, sizeof table, a, sizeof a, b, sizeof b, list, sizeof list, answer);
    size_t list_len = answer[LENGTH];
    show("difference of A and B", list, list_len, answer);

    shefumbari_apply(table, sizeof table, a, sizeof a, list, list_len, image, sizeof image, answer);
    size_t image_len = answer[LENGTH];
    show("applied to A", image, image_len, answer);

    /* the first time it is applied; received again, over the image it led to, it is late */
    shefumbari_receive(table, sizeof table, a, sizeof a, list, list_len, image, sizeof image, standing, answer);
    show("received", NULL, 0, answer);
    shefumbari_receive(table, sizeof table, b, sizeof b, list, list_len, image, sizeof image, standing, answer);
    show("received again", NULL, 0, answer);
    printf("standing: applied %" PRIu32 ", late %" PRIu32 ", gap %" PRIu32 ", other %" PRIu32 "\n", standing[0],
           standing[1], standing[2], standing[3]);

    /* a track circuit: the fifth of its fields is OCUP_EST */
    shefumbari_read_state(table, sizeof table, image, image_len, 0, fields, answer);
    printf("object 0: kind %" PRIu32 ", current %" PRIu32 ", occupancy %" PRIu32 "\n", answer[KIND], fields[0],
           fields[4]);

    uint8_t panel[sizeof table + sizeof image];
    size_t panel_len = 0;
    for (size_t i = 0; i < sizeof table; i++)
        panel[panel_len++] = table[i];
    for (size_t i = 0; i < image_len; i++)
        panel[panel_len++] = image[i];
    shefumbari_listing(panel, panel_len, text, sizeof text, answer);
    if (answer[CODE] != 0)
        return 1;
    fwrite(text, 1, answer[LENGTH], stdout);
    return 0;
}
