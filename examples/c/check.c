/* Checks a table of program texts as a controller would, and says which answer was wrong. */
#include <stdint.h>
#include <stdio.h>

#include "dafimbory.h"

struct text_case {
    const char *what;
    const char *text;
    size_t length;
    uint32_t number;
    uint32_t place;
};

#define TEXT(bytes) bytes, sizeof(bytes) - 1

static const struct text_case cases[] = {
    {"a full stop alone", TEXT("."), 0, 0},
    {"one compensatable step", TEXT("C\x00\x00\x03."), 0, 0},
    {"a pivot with a retriable step", TEXT("C\x00\x00\x03P\x03\x00\x03[R\x04\x00\x03]."), 0, 0},
    {"a pivot with two alternatives", TEXT("P\x04\x00\x03[C\x01\x00\x03|]."), 0, 0},
    {"the empty text", TEXT(""), 3, 0},
    {"a bracket that is not closed", TEXT("C\x00\x00\x03P\x03\x00\x03[R\x04\x00\x03."), 2, 13},
    {"an alternative that ends in a closing bracket", TEXT("P\x03\x00\x03[C\x00\x00\x03]."), 2, 9},
    {"a byte that is no command", TEXT("c\x00\x00\x03."), 2, 0},
    {"operands cut off", TEXT("C\x00\x00\x03" "C\x00"), 3, 4},
    {"a fifth open bracket", TEXT("P...[P...[P...[P...[P...[]|]|]|]|]."), 5, 24},
    {"bytes after the full stop", TEXT("C\x00\x00\x03.\n"), 6, 5},
};

/* The texts that are long to write are made here. A row of steps: 4 bytes for each, and 1 for the full stop. */
static uint32_t many_steps(size_t steps, uint8_t *area) {
    size_t length = 0;
    for (size_t i = 0; i < steps; i++) {
        area[length++] = 'C';
        area[length++] = 0;
        area[length++] = 0;
        area[length++] = 3;
    }
    area[length++] = '.';
    return program_text_check(area, length);
}

/* A pivot with empty alternatives, so many that the text has the given number of bytes, at least 7. */
static uint32_t many_alternatives(size_t bytes, uint8_t *area) {
    size_t length = 0;
    area[length++] = 'P';
    area[length++] = 3;
    area[length++] = 0;
    area[length++] = 3;
    area[length++] = '[';
    while (length + 2 < bytes) {
        area[length++] = '|';
    }
    area[length++] = ']';
    area[length++] = '.';
    return program_text_check(area, length);
}

static int expect(const char *what, uint32_t answer, uint32_t number, uint32_t place) {
    uint32_t got_number = DAFIMBORY_REFUSAL_NUMBER(answer);
    uint32_t got_place = DAFIMBORY_REFUSAL_PLACE(answer);
    int wrong = got_number != number || got_place != place;
    printf("%-46s refusal %u at %u%s\n", what, (unsigned)got_number, (unsigned)got_place, wrong ? "   WRONG" : "");
    return wrong;
}

int main(void) {
    static uint8_t area[4096];
    int wrong = 0;
    for (size_t i = 0; i < sizeof cases / sizeof cases[0]; i++) {
        const struct text_case *c = &cases[i];
        wrong += expect(c->what, program_text_check((const uint8_t *)c->text, c->length), c->number, c->place);
    }
    wrong += expect("32 steps", many_steps(32, area), 0, 0);
    wrong += expect("33 steps", many_steps(33, area), 4, 128);
    wrong += expect("255 bytes, 249 alternatives", many_alternatives(255, area), 0, 0);
    wrong += expect("256 bytes, 250 alternatives", many_alternatives(256, area), 1, 255);
    wrong += expect("256 steps, 1,025 bytes", many_steps(256, area), 1, 255);
    wrong += expect("no area at all", program_text_check(NULL, 0), 3, 0);
    if (wrong != 0) {
        printf("%d wrong answers\n", wrong);
        return 1;
    }
    return 0;
}
