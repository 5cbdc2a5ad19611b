// What the header says in C++.
#include "pocsag.h"
int main() {
    size_t tx, cert;
    pocsag_plan_bound(0, 1, &tx, &cert);
    bool fits = POCSAG_LISTING_BOUND(tx) > 0 && POCSAG_SHOW_DRAWING_BOUND(tx) > 0 && POCSAG_WAV_BOUND(tx, 512u, 8000u, 0u) > tx;
    return fits && pocsag_version() == POCSAG_VERSION && tx == 208 && cert == 12 && *pocsag_status_text(0) == 'd' ? 0 : 1;
}
