/* See bundles.h. */
#define _POSIX_C_SOURCE 200809L
#include "bundles.h"

#include <limits.h>
#include <stdio.h>
#include <string.h>

/* A name comes from outside: it must not lead out of the folder. */
static int is_name(const char *name) {
    return name[0] != 0 && name[0] != '.' && strchr(name, '/') == NULL && strlen(name) < BUNDLE_NAME;
}

int bundles_read(const char *folder, const char *name, named_bundle *bundle) {
    char path[PATH_MAX];
    if (!is_name(name) || snprintf(path, sizeof path, "%s/%s", folder, name) >= (int)sizeof path) return 0;
    FILE *file = fopen(path, "rb");
    if (file == NULL) return 0;
    bundle->length = fread(bundle->bytes, 1, sizeof bundle->bytes, file);
    strcpy(bundle->name, name);
    fclose(file);
    return 1;
}
