/* Measures building an index and querying it, and prints a line for each. */
#ifndef INDEX_H
#define INDEX_H

#include "nets.h"

void measure_index(const char *family, const struct net *net);

#endif
