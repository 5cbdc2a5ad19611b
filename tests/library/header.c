/* What stands in the header alone:  header texts  prints the text of each status below 100,  header BYTES LIMIT  the sizes
 * that suffice for the plan of so many bytes, of the transmission, the certificate and the pages that a front leaves, and
 * header BYTES RATE SAMPLES PREAMBLE  those for what is told of a transmission of so many bytes. */
#include <stdio.h>
#include <stdlib.h>

#include "pocsag.h"

int main(int argc, char **argv)
{
    size_t tx_size, cert_size, rest_size;
    if (argc == 2)
        for (uint32_t status = 0; status < 100; status++)
            printf("%u %s\n", status, pocsag_status_text(status));
    size_t bytes = argc > 2 ? strtoull(argv[1], NULL, 10) : 0, fronts[2];
    if (argc == 5)
        printf("%zu %zu %zu %zu %llu\n", POCSAG_LISTING_BOUND(bytes), POCSAG_SHOW_TEXT_BOUND(bytes), POCSAG_SHOW_LIST_BOUND(bytes),
               POCSAG_SHOW_DRAWING_BOUND(bytes),
               (unsigned long long)POCSAG_WAV_BOUND(bytes, strtoul(argv[2], NULL, 10), strtoul(argv[3], NULL, 10), strtoul(argv[4], NULL, 10)));
    if (argc != 3)
        return argc != 2 && argc != 5;
    uint32_t limit = (uint32_t)strtoul(argv[2], NULL, 10);
    pocsag_plan_bound(bytes, limit, &tx_size, &cert_size);
    pocsag_front_bound(bytes, limit, &fronts[0], &fronts[1], &rest_size);
    printf("%zu %zu %zu\n", tx_size, cert_size, rest_size);
    return fronts[0] != tx_size || fronts[1] != cert_size;
}
