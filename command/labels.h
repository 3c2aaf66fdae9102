/* labels.h: all labels of a picture, put where none lies on another. */
#ifndef LABELS_H
#define LABELS_H

#include <stddef.h>

#include "label.h"
#include "picture.h"

/* Prints the labels, those of hits first. One that would lie on another, or reach out of the frame, is left out. False where there is no memory. */
bool labels_print(const struct picture *picture, const struct label *labels, size_t count);

#endif
