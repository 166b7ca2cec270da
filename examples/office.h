/* The office. It has every bundle of the season by its name, and a series of books for each till. */
#ifndef OFFICE_H
#define OFFICE_H

#include "till.h"

typedef struct {
    const char *folder;  /* with a folder for each till, till-00007 for till 7 */
    const char *bundles; /* the folder of the bundles */
} office;

/* The folder of a till's books: whether the name fits. */
int office_folder(const office *office, uint32_t till, char *path, size_t most);

/* Books or cancels, saves, and only then answers. A new sale is priced by the bundle that the till names. Where the
 * office has no such bundle the answer is STORE_NO_FILE for book 0, and nothing is booked. */
series_answer office_take(const office *office, const message *message);

#endif
