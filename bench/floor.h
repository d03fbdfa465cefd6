#ifndef FLOOR_H
#define FLOOR_H

#include "hemtaluq.h"

hemtaluq_weigh_answer floor_weigh(const uint8_t *file, size_t length, const uint16_t *weights, size_t count, uint16_t *cycle, size_t room);

#endif
