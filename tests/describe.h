/* Calls, answers and records in words. */
#ifndef DESCRIBE_H
#define DESCRIBE_H
#include <stdio.h>
#include "spur.h"
void say_hex(FILE *to, const uint8_t *bytes, size_t len);
void say_record(FILE *to, const uint8_t *bytes);
void say_call(FILE *to, const uint8_t *call);
void say_answer(FILE *to, const uint8_t *call, const uint8_t *answer);
#endif
