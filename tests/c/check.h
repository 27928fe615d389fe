/* Failing tests say where and what, and end the program; answers that were seen are counted. */
#ifndef CHECK_H
#define CHECK_H

#include <stdint.h>
#include <stdio.h>
#include <stdlib.h>

#define CHECK(condition)                                                                      \
    do {                                                                                      \
        if (!(condition)) {                                                                   \
            fprintf(stderr, "%s:%d: this does not hold: %s\n", __FILE__, __LINE__, #condition); \
            exit(1);                                                                          \
        }                                                                                     \
    } while (0)

#define CHECK_EQUAL(found, wanted)                                                                 \
    do {                                                                                           \
        uint64_t found_ = (found), wanted_ = (wanted);                                             \
        if (found_ != wanted_) {                                                                   \
            fprintf(stderr, "%s:%d: %s is %llu, should be %llu\n", __FILE__, __LINE__, #found,      \
                    (unsigned long long)found_, (unsigned long long)wanted_);                      \
            exit(1);                                                                               \
        }                                                                                          \
    } while (0)

/* Exported functions, and how often each gave each answer. */
enum function { EXECUTE, RUN, DECODE, ENCODE, CHECK_SETTINGS, MEASURE, TAKE_TILE, GIVE_UP_TILE, FUNCTIONS };

/* The answers are below this. */
enum { ANSWERS = 17 };

extern unsigned seen[FUNCTIONS][ANSWERS];

void access_tests(void);
void count_tests(void);
void execute_tests(void);
void listing_tests(void);
void long_buffers_tests(void);
void word_tests(void);
void settings_tests(void);
void size_tests(void);
void tile_tests(void);
void wrapper_tests(void);

#endif
