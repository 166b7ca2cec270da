/* What examples/operate.c prints: what was told, and what is owed. */
#ifndef PROTOCOL_H
#define PROTOCOL_H

#include "settlement.h"
#include "till.h"

#include <stdio.h>

void title(const char *text);

/* An indented line, as printf makes it. */
#define line(...) (printf("   "), printf(__VA_ARGS__), puts(""))

/* What a till or the office answered to a sale or a cancellation. */
void told(const char *who, const till *till, uint64_t sequence, series_answer answer);

/* What the books of a series come to. */
void owed(const char *whose, const char *folder);

/* A whole settlement, with all that stands against it. */
void settled(const char *what, const char *const *folders, int count);

#endif
