/* Measures separating two vertices, and prints a line for it. */
#ifndef SEPARATE_H
#define SEPARATE_H

#include "nets.h"

void measure_separate(const char *family, const struct net *net);

#endif
