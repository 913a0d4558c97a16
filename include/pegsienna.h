/* Judging scripts and calling those that end. Both calls are proved; docs/LANGUAGE.md says what scripts, trees, ways, depth and room are.
 *
 * Every pointer has to be aligned and not null, even where the length is 0, and has to point to as many elements as the length says.
 * What is written (work, out) may overlap nothing else. No call allocates, keeps a pointer or uses anything but its arguments and the native stack. */
#ifndef PEGSIENNA_H
#define PEGSIENNA_H

#include <stddef.h>
#include <stdint.h>

#ifdef __cplusplus
extern "C" {
#endif

/* What pegsienna_judge answers. */
enum pegsienna_verdict {
    PEGSIENNA_ENDS = 0,       /* a program with the reason: it ends whatever it is called with */
    PEGSIENNA_NO_REASON = 1,  /* a program without the reason */
    PEGSIENNA_NO_PROGRAM = 2, /* no program */
    PEGSIENNA_MANY = 3,       /* more ways than allowed */
    PEGSIENNA_FEW = 4         /* fewer work words than pegsienna_judge_words */
};

/* What pegsienna_go answers. */
enum pegsienna_answer {
    PEGSIENNA_VALUE = 0,    /* a value, whose bytes stand first in out; the others are as they were */
    PEGSIENNA_FULL = 1,     /* no room was left for a node; here and below, out is as it was */
    PEGSIENNA_DEEP = 2,     /* as many calls were open inside as allowed */
    PEGSIENNA_UNPROVED = 3, /* judging the program says something else than ends */
    PEGSIENNA_BAD_CALL = 4, /* no such function, or args are not as many trees as it takes */
    PEGSIENNA_OUT_FULL = 5, /* the value has more bytes than out holds */
    PEGSIENNA_SMALL = 6     /* fewer work words than pegsienna_go_words, or args_len + room is 2^32 or more */
};

typedef struct {
    uint32_t answer; /* an enum pegsienna_answer */
    uint32_t room;   /* of a value: the room left; else 0 */
    size_t bytes;    /* of a value: how many bytes it has; else 0 */
} pegsienna_ran;

/* How many work words a call takes; SIZE_MAX where that doesn't fit. */
size_t pegsienna_judge_words(size_t program_len, uint32_t ways);
size_t pegsienna_go_words(size_t program_len, uint32_t ways, size_t args_len, uint32_t depth, uint32_t room);

/* Judges a program, with so many ways at most: an enum pegsienna_verdict. */
uint32_t pegsienna_judge(const uint8_t *program, size_t program_len, uint32_t ways, uint32_t *work, size_t work_len);

/* Judges a program and, if it ends, calls one of its functions with the trees args, with so many calls open inside and so many nodes made at most.
 * It uses native stack for each open call and for each expression that stands in another. */
pegsienna_ran pegsienna_go(const uint8_t *program, size_t program_len, uint32_t ways, size_t function, const uint8_t *args, size_t args_len,
                           uint32_t depth, uint32_t room, uint8_t *out, size_t out_len, uint32_t *work, size_t work_len);

#ifdef __cplusplus
}
#endif

#endif
