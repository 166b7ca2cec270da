/* The verdict by the engine and by its two peers in C, plain and with a hash table: the same answers, and the times beside each other. */
#ifndef PEERS_H
#define PEERS_H

#include "bundles.h"
#include "hashing.h"
#include "validator.h"

typedef offers_judgement verdict(const uint8_t *bundle, size_t length);

/* The verdict on which all three agree: the program ends where they do not. */
offers_judgement agreed(const struct bundle *b);

/* The best time of a verdict, which must have this number. */
double time_of_verdict(int runs, verdict *by, const struct bundle *b, uint64_t number);

/* Tells the engine's time on a good bundle beside both peers', and returns it. */
double tell_verdict(int runs, const char *what, const struct bundle *b);

#endif
