/* The verdict on a job, written plainly in C: what the proved mount is measured beside. */
#ifndef MOUNT_H
#define MOUNT_H

#include <stddef.h>
#include <stdint.h>

enum { LABELS = 128, PLACES = 8, VARIABLES = 32, LONGEST = 4356 };
enum { LOAD = 1, STORE, PUSH, ADD, SUB, EQ, LESS, NOT, GOTO, GOTOF, COPY, SWAP, DROP };
enum { INTEGER, BOOLEAN };

typedef struct {
    uint8_t op;
    uint8_t junction;
    int32_t operand;
} Instruction;

typedef enum { OPERATION, JUNCTION, OPERAND, MARK, DEPTH, SURROUNDING, KIND, LEVEL } Field;

/* What a refusal names beside number and label. */
typedef struct {
    enum { NO_CAUSE, BYTE_PLACE, FIELD, VARIABLE, SUCCESSOR, EXIT_INSIDE, LABEL_INSIDE } tag;
    uint32_t at;          /* the byte place, the variable or the label */
    Field field;          /* where the tag is FIELD */
    uint32_t stack_place; /* where the field is KIND or LEVEL */
} Cause;

/* The number is 0 where the job is accepted. */
typedef struct {
    uint32_t number, label;
    Cause cause;
} Verdict;

/* Over a ladder of so many levels, each of the 32 variables at one of them. */
Verdict plain_mount(const uint8_t *job, size_t length, uint32_t span, const uint16_t *levels);

#endif
