/* The bundles of a season, each a file of a folder, known by its name. */
#ifndef BUNDLES_H
#define BUNDLES_H

#include "../include/offers.h"
#include "outbox.h"

typedef struct {
    char name[BUNDLE_NAME];
    size_t length;
    uint8_t bytes[OFFERS_MOST_BUNDLE_BYTES + 1]; /* one more, so that the engine refuses a bundle that is too long */
} named_bundle;

/* Whether the folder has it. Otherwise the bundle is as it was. */
int bundles_read(const char *folder, const char *name, named_bundle *bundle);

#endif
