#ifndef PLAIN_H
#define PLAIN_H

#include <stddef.h>
#include <stdint.h>

uint64_t plain_verdict(const uint8_t *log, size_t length);

#endif
