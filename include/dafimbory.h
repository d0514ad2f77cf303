/* Dafimbory: what C controllers call. Link target/staticlib/libprogram.a, which tools/staticlib builds. */
#ifndef DAFIMBORY_H
#define DAFIMBORY_H

#include <stddef.h>
#include <stdint.h>

#ifdef __cplusplus
extern "C" {
#endif

/*
 * Checks a program text: `length` bytes from `text` on. It takes every byte area, keeps nothing, allocates
 * nothing and always returns; with length 0 nothing is read, whatever `text` is.
 *
 * The answer is 0 where the text is a program, and else the refusal's number x 65,536 + its place:
 *   1  over 255 bytes (place 255)
 *   2  a byte that is no command, or a command that cannot stand there
 *   3  no byte is left (place: the length), or a step's operands are cut off (place: the step's letter)
 *   4  the 33rd step
 *   5  a fifth open bracket
 *   6  bytes after the full stop (place: the first of them)
 */
uint32_t program_text_check(const uint8_t *text, size_t length);

/* The two parts of the answer. */
#define DAFIMBORY_REFUSAL_NUMBER(answer) ((answer) >> 16)
#define DAFIMBORY_REFUSAL_PLACE(answer) ((answer) & 0xffffu)

#ifdef __cplusplus
}
#endif

#endif
