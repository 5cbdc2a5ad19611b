/* Plans a page file and checks the certificate, in process:  plan PAGES.  Prints what it told. */
#include <stdio.h>
#include <stdlib.h>

#include "pocsag.h"

/* All the bytes of a file, or NULL. */
static uint8_t *read_file(const char *name, size_t *len)
{
    FILE *file = fopen(name, "rb");
    uint8_t *bytes = NULL;
    size_t room = 0;
    *len = 0;
    while (file != NULL && !feof(file) && !ferror(file)) {
        if (*len == room) {
            uint8_t *more = realloc(bytes, room = 2 * room + 4096);
            if (more == NULL)
                break;
            bytes = more;
        }
        *len += fread(bytes + *len, 1, room - *len, file);
    }
    int is_whole = file != NULL && feof(file) && !ferror(file);
    if (file != NULL)
        fclose(file);
    if (is_whole)
        return bytes;
    free(bytes);
    return NULL;
}

int main(int argc, char **argv)
{
    size_t pages_len = 0, tx_len, cert_len;
    struct pocsag_plan_info info;
    struct pocsag_check_info check;
    uint8_t *pages = argc == 2 ? read_file(argv[1], &pages_len) : NULL;
    if (pages == NULL || pocsag_version() != POCSAG_VERSION)
        return 2;

    size_t tx_size, cert_size;
    pocsag_plan_bound(pages_len, POCSAG_DEFAULT_LIMIT, &tx_size, &cert_size);
    uint8_t *tx = malloc(tx_size), *cert = malloc(cert_size);
    if (tx == NULL || cert == NULL)
        return 3;
    uint32_t status = pocsag_plan(pages, pages_len, tx, tx_size, &tx_len, cert, cert_size, &cert_len,
                                  POCSAG_DEFAULT_LIMIT, POCSAG_END_OPEN, 1, &info);
    if (status != POCSAG_OK) {
        printf("%s, record %u\n", pocsag_status_text(status), info.place.record_number);
        return 1;
    }
    printf("pages %u\nbatches %u\ntransmission %zu bytes, certificate %zu bytes\n",
           info.pages, info.batches, tx_len, cert_len);

    status = pocsag_check(pages, pages_len, cert, cert_len, &check);
    if (status == POCSAG_OK)
        printf("at least %u batches\n", check.batches);
    free(pages);
    free(tx);
    free(cert);
    return status == POCSAG_OK ? 0 : 1;
}
