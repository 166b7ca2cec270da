/* The verdict as a program with a heap would have it: plain C whose searches look into a hash table. */
#ifndef HASHING_H
#define HASHING_H

#include "../include/offers.h"

offers_judgement hashed_verdict(const uint8_t *bundle, size_t length);

#endif
