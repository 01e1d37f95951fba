/* Marks the sample paper of document 01, section 6, prints its lines and its log, analyses a fragment that is refused and says
 * why in words, shows the items of an end, keeps a tally, sums up a sitting, and lists a fragment and
 * assembles it again. */
#include <inttypes.h>
#include <stdio.h>
#include <stdlib.h>

#include "listochur.h"

/* these items of a stack, from bottom to top: their bytes, or `unknown` */
static void show(const char *stack, const uint64_t *items, uint64_t count) {
    for (; count > 0; count--, items += LISTOCHUR_ITEM_NUMBERS) {
        printf("%s ", stack);
        if (items[0] == LISTOCHUR_UNKNOWN) {
            printf("unknown");
        } else {
            for (uint64_t k = 0; k < items[0]; k++) printf("%02x", (unsigned)(items[1] >> 8 * k & 0xff));
        }
        printf("\n");
    }
}

int main(void) {
    const uint8_t paper[] = {0x01, 0x00, 0x01, 0x00, 0x0e, 0x00, 0x00, 0x00, 0x01, 0x00,
                             0x0e, 0x00, 0x06, 0x00, 0x63, 0x51, 0x67, 0x52, 0x68, 0x75};
    uint16_t log[24000];
    uint64_t p[LISTOCHUR_PAPER_PLACES];
    if (listochur_mark_paper(paper, sizeof paper, log, 24000, p, LISTOCHUR_PAPER_PLACES) == 0) {
        printf("accepted: %" PRIu64 " rows, peak %" PRIu64 "\n", p[5], p[6]);
    } else {
        printf("refused %" PRIu64 " at %" PRIu64 " %" PRIu64 " %" PRIu64 " %" PRIu64 "\n", p[0], p[1], p[2], p[3], p[4]);
    }

    uint8_t text[LISTOCHUR_LINES_BYTES];
    uint64_t size;
    listochur_mark_lines(paper, sizeof paper, log, 24000, text, sizeof text, &size, LISTOCHUR_LINES_PLACES);
    fwrite(text, 1, size, stdout);

    /* how much to lend, and then the log */
    listochur_log_lines(paper, sizeof paper, log, 24000, NULL, 0, &size, LISTOCHUR_LOG_LINES_PLACES);
    uint8_t *rows = malloc(size);
    if (rows == NULL) return 1;
    listochur_log_lines(paper, sizeof paper, log, 24000, rows, size, &size, LISTOCHUR_LOG_LINES_PLACES);
    fwrite(rows, 1, size, stdout);
    free(rows);

    const uint8_t fragment[] = {0x51, 0x79};
    uint64_t v[LISTOCHUR_VERDICT_PLACES];
    listochur_analyze(fragment, sizeof fragment, 1, 0, log, 24000, v, LISTOCHUR_VERDICT_PLACES);
    printf("%" PRIu64 " at %" PRIu64 ", %" PRIu64 ", %" PRIu64 "\n", v[0], v[1], v[2], v[3]);
    uint8_t words[LISTOCHUR_REASON_BYTES];
    listochur_reason((uint32_t)v[0], v[2], v[3], words, sizeof words, &size, LISTOCHUR_REASON_PLACES);
    printf("%.*s\n", (int)size, (const char *)words);

    /* 1; 05 06, to alt; a plain effect that pushes */
    const uint8_t pushes[] = {0x51, 0x02, 0x05, 0x06, 0x6b, 0xb2};
    uint64_t items[LISTOCHUR_ITEMS_PLACES], w[LISTOCHUR_VERDICT_PLACES];
    listochur_analyze_items(pushes, sizeof pushes, 0, 0, log, 24000, items, LISTOCHUR_ITEMS_PLACES, w, LISTOCHUR_VERDICT_PLACES);
    show("main", items, w[7]);
    show("alt", items + LISTOCHUR_ITEM_NUMBERS * w[7], w[8]);

    /* the paper has one fragment, so its verdict is that fragment's */
    uint32_t tally[4] = {0};
    listochur_gain(tally, (uint32_t)p[0], p[5], (uint32_t)p[6]);
    listochur_gain(tally, (uint32_t)v[0], v[4], (uint32_t)v[5]);
    printf("%" PRIu32 " fragments, %" PRIu32 " accepted, %" PRIu32 " rows, peak %" PRIu32 "\n", tally[0], tally[1], tally[2],
           tally[3]);

    const uint32_t sitting[] = {(uint32_t)p[0], (uint32_t)p[6], (uint32_t)v[0], (uint32_t)v[5]};
    uint64_t s[LISTOCHUR_SUMS_PLACES];
    listochur_sums(sitting, 4, s, LISTOCHUR_SUMS_PLACES);
    printf("%" PRIu64 " with 0, %" PRIu64 " with 7, peaks of the accepted: sum %" PRIu64 ", count %" PRIu64 "\n", s[3], s[3 + 7],
           s[1], s[2]);

    const uint8_t pushed[] = {0x76, 0x4c, 0x01, 0x05, 0x50};
    uint8_t listing[80], shortest[80];
    uint64_t l[LISTOCHUR_LISTING_PLACES], a[LISTOCHUR_LISTING_PLACES];
    listochur_list(pushed, sizeof pushed, listing, sizeof listing, l, LISTOCHUR_LISTING_PLACES);
    printf("%.*s\n", (int)l[2], (const char *)listing);
    listochur_assemble(listing, l[2], shortest, sizeof shortest, a, LISTOCHUR_LISTING_PLACES);
    for (uint64_t k = 0; k < a[2]; k++) printf("%02x", shortest[k]);
    printf("\n");
    return 0;
}
