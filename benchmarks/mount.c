/* The verdict on a job: instructions and claims are read once into structs, and the rules are asked over these. The
 * pages docs/job-format.md and docs/claims.md say what it has to be. */
#include "mount.h"

#include <stdbool.h>
#include <string.h>

enum { OPENING = 4, INSTRUCTION_RECORD = 6, CLAIM_HEAD = 4, CLAIM_PLACE = 3 };

/* ---- The ladder. Both are asked of levels alone. */

static inline bool at_most(uint16_t a, uint16_t b)
{
    return a <= b;
}

static inline uint16_t join(uint16_t a, uint16_t b)
{
    return a > b ? a : b;
}

/* ---- What the bytes say. */

typedef struct {
    uint8_t kind;
    uint16_t level;
} Place;

/* Bottom first. */
typedef struct {
    uint32_t depth;
    Place places[PLACES];
} Stack;

typedef struct {
    bool claimed;
    uint16_t surrounding;
    Stack stack;
} Claim;

typedef struct {
    const uint8_t *bytes;
    size_t length;
    uint32_t span;
    const uint16_t *levels; /* of the variables */
    uint32_t n, d;
    Instruction code[LABELS];
    Claim claims[LABELS];
    Verdict verdict;
} Job;

static bool refuse(Job *job, uint32_t number, uint32_t label, Cause cause)
{
    job->verdict = (Verdict){number, label, cause};
    return false;
}

static bool refuse_length(Job *job, uint32_t number, size_t byte_place)
{
    return refuse(job, number, 0, (Cause){.tag = BYTE_PLACE, .at = (uint32_t)byte_place});
}

static bool refuse_instruction(Job *job, uint32_t label, Field field, const uint8_t *at)
{
    return refuse(job, 8, label, (Cause){.tag = FIELD, .at = (uint32_t)(at - job->bytes), .field = field});
}

static bool refuse_claim(Job *job, uint32_t label, Field field, uint32_t stack_place, const uint8_t *at)
{
    return refuse(job, 9, label, (Cause){FIELD, (uint32_t)(at - job->bytes), field, stack_place});
}

static uint16_t two_bytes(const uint8_t *at)
{
    return (uint16_t)(at[0] | at[1] << 8);
}

static int32_t four_bytes(const uint8_t *at)
{
    return (int32_t)(two_bytes(at) | (uint32_t)two_bytes(at + 2) << 16);
}

static bool read_opening(Job *job)
{
    if (job->length < OPENING)
        return refuse_length(job, 4, 0);
    job->n = two_bytes(job->bytes);
    job->d = two_bytes(job->bytes + 2);
    if (job->n > LABELS)
        return refuse_length(job, 5, 0);
    if (job->d > PLACES)
        return refuse_length(job, 6, 2);
    size_t right = OPENING + job->n * (INSTRUCTION_RECORD + CLAIM_HEAD + CLAIM_PLACE * job->d);
    if (job->length != right)
        return refuse_length(job, 7, job->length < right ? job->length : right);
    return true;
}

static bool operand_fits(uint8_t op, int32_t operand, uint32_t n)
{
    switch (op) {
    case LOAD: case STORE: return (uint32_t)operand < VARIABLES;
    case PUSH: return true;
    case GOTO: case GOTOF: return (uint32_t)operand <= n;
    default: return operand == 0;
    }
}

static bool read_instruction(Job *job, uint32_t label, const uint8_t *record)
{
    Instruction i = {record[0], record[1], four_bytes(record + 2)};
    if (i.op < LOAD || i.op > DROP)
        return refuse_instruction(job, label, OPERATION, record);
    if (i.junction > (i.op == GOTOF ? job->n : 0))
        return refuse_instruction(job, label, JUNCTION, record + 1);
    if (!operand_fits(i.op, i.operand, job->n))
        return refuse_instruction(job, label, OPERAND, record + 2);
    job->code[label] = i;
    return true;
}

static bool read_instructions(Job *job)
{
    const uint8_t *record = job->bytes + OPENING;
    for (uint32_t l = 0; l < job->n; l++, record += INSTRUCTION_RECORD)
        if (!read_instruction(job, l, record))
            return false;
    return true;
}

/* A level where one is claimed, and 0 where none is. */
static bool level_fits(const Job *job, bool claimed, uint16_t level)
{
    return claimed ? level < job->span : level == 0;
}

static bool read_claim(Job *job, uint32_t label, const uint8_t *record)
{
    Claim *claim = &job->claims[label];
    uint8_t mark = record[0], depth = record[1];
    if (mark > 1)
        return refuse_claim(job, label, MARK, 0, record);
    if (depth > (mark ? job->d : 0))
        return refuse_claim(job, label, DEPTH, 0, record + 1);
    claim->claimed = mark;
    claim->surrounding = two_bytes(record + 2);
    claim->stack.depth = depth;
    if (!level_fits(job, mark, claim->surrounding))
        return refuse_claim(job, label, SURROUNDING, 0, record + 2);
    const uint8_t *at = record + CLAIM_HEAD;
    for (uint32_t i = 0; i < job->d; i++, at += CLAIM_PLACE) {
        Place place = {at[0], two_bytes(at + 1)};
        if (place.kind > (i < depth ? BOOLEAN : 0))
            return refuse_claim(job, label, KIND, i, at);
        if (!level_fits(job, i < depth, place.level))
            return refuse_claim(job, label, LEVEL, i, at + 1);
        if (i < depth)
            claim->stack.places[depth - 1 - i] = place;
    }
    return true;
}

static bool read_claims(Job *job)
{
    const uint8_t *record = job->bytes + OPENING + INSTRUCTION_RECORD * job->n;
    for (uint32_t l = 0; l < job->n; l++, record += CLAIM_HEAD + CLAIM_PLACE * job->d)
        if (!read_claim(job, l, record))
            return false;
    return true;
}

/* ---- Rules 10 to 13. */

static bool entry_holds(Job *job)
{
    if (job->n > 0 && (!job->claims[0].claimed || job->claims[0].stack.depth > 0))
        return refuse(job, 10, 0, (Cause){.tag = NO_CAUSE});
    return true;
}

/* Whether the stack place that stands so far under the top is there and has this kind. */
static bool has(const Stack *stack, uint32_t under, uint8_t kind)
{
    return stack->depth > under && stack->places[stack->depth - 1 - under].kind == kind;
}

static bool faults(uint8_t op, const Stack *stack)
{
    switch (op) {
    case LOAD: case PUSH: return stack->depth == PLACES;
    case STORE: return !has(stack, 0, INTEGER);
    case ADD: case SUB: case EQ: case LESS: return !has(stack, 0, INTEGER) || !has(stack, 1, INTEGER);
    case NOT: case GOTOF: return !has(stack, 0, BOOLEAN);
    case COPY: return stack->depth == 0 || stack->depth == PLACES;
    case SWAP: return stack->depth < 2;
    case DROP: return stack->depth < 1;
    default: return false;
    }
}

static Place pop(Stack *stack)
{
    return stack->places[--stack->depth];
}

static void push(Stack *stack, uint8_t kind, uint16_t level)
{
    stack->places[stack->depth++] = (Place){kind, level};
}

static void raise(Stack *stack, uint16_t level)
{
    for (uint32_t i = 0; i < stack->depth; i++)
        stack->places[i].level = join(stack->places[i].level, level);
}

/* The claimed stack after the instruction, at which it does not fault. */
static Stack leaving(const Job *job, Instruction i, const Claim *claim)
{
    Stack stack = claim->stack;
    uint16_t p = claim->surrounding;
    Place top = {0, 0}, under = {0, 0};
    switch (i.op) {
    case LOAD: push(&stack, INTEGER, join(job->levels[i.operand], p)); break;
    case PUSH: push(&stack, INTEGER, p); break;
    case STORE: case DROP: pop(&stack); break;
    case ADD: case SUB: case EQ: case LESS:
        top = pop(&stack);
        under = pop(&stack);
        push(&stack, i.op == EQ || i.op == LESS ? BOOLEAN : INTEGER, join(join(top.level, under.level), p));
        break;
    case NOT:
        top = pop(&stack);
        push(&stack, BOOLEAN, join(top.level, p));
        break;
    case GOTOF:
        top = pop(&stack);
        raise(&stack, top.level);
        break;
    case COPY:
        top = stack.places[stack.depth - 1];
        push(&stack, top.kind, join(top.level, p));
        break;
    case SWAP:
        top = pop(&stack);
        under = pop(&stack);
        push(&stack, top.kind, join(top.level, p));
        push(&stack, under.kind, join(under.level, p));
        break;
    }
    return stack;
}

static bool takes(const Job *job, uint32_t label, const Stack *stack)
{
    if (label == job->n)
        return stack->depth == 0;
    const Claim *claim = &job->claims[label];
    if (!claim->claimed || claim->stack.depth != stack->depth)
        return false;
    for (uint32_t i = 0; i < stack->depth; i++) {
        Place left = stack->places[i], taken = claim->stack.places[i];
        if (left.kind != taken.kind || !at_most(left.level, taken.level))
            return false;
    }
    return true;
}

static bool goes_on(Instruction i)
{
    return i.op != GOTO;
}

static bool jumps(Instruction i)
{
    return i.op == GOTO || i.op == GOTOF;
}

static bool label_holds(Job *job, uint32_t label)
{
    Instruction i = job->code[label];
    const Claim *claim = &job->claims[label];
    if (faults(i.op, &claim->stack))
        return refuse(job, 11, label, (Cause){.tag = NO_CAUSE});
    if (i.op == STORE) {
        uint16_t top = claim->stack.places[claim->stack.depth - 1].level;
        if (!at_most(join(top, claim->surrounding), job->levels[i.operand]))
            return refuse(job, 12, label, (Cause){.tag = VARIABLE, .at = (uint32_t)i.operand});
    }
    Stack stack = leaving(job, i, claim);
    if (goes_on(i) && !takes(job, label + 1, &stack))
        return refuse(job, 13, label, (Cause){.tag = SUCCESSOR, .at = label + 1});
    if (jumps(i) && !takes(job, (uint32_t)i.operand, &stack))
        return refuse(job, 13, label, (Cause){.tag = SUCCESSOR, .at = (uint32_t)i.operand});
    return true;
}

static bool labels_hold(Job *job)
{
    for (uint32_t l = 0; l < job->n; l++)
        if (job->claims[l].claimed && !label_holds(job, l))
            return false;
    return true;
}

/* ---- Rules 14 and 15. */

/* Of the 129 labels the junction is not in it, so 128 have room. */
typedef struct {
    uint32_t junction, count;
    uint8_t labels[LABELS];
    uint8_t inside[LABELS + 1];
} Region;

static void reach(Region *region, uint32_t label)
{
    if (label != region->junction && !region->inside[label]) {
        region->inside[label] = 1;
        region->labels[region->count++] = (uint8_t)label;
    }
}

static void reach_successors(Region *region, Instruction i, uint32_t label)
{
    if (goes_on(i))
        reach(region, label + 1);
    if (jumps(i))
        reach(region, (uint32_t)i.operand);
}

/* The list of its labels is also the list of those whose successors are still to be reached. */
static void find_region(const Job *job, uint32_t branch, Region *region)
{
    region->junction = job->code[branch].junction;
    region->count = 0;
    memset(region->inside, 0, sizeof region->inside);
    reach_successors(region, job->code[branch], branch);
    for (uint32_t k = 0; k < region->count; k++) {
        uint32_t label = region->labels[k];
        if (label < job->n)
            reach_successors(region, job->code[label], label);
    }
}

static bool branch_holds(Job *job, uint32_t branch)
{
    const Stack *stack = &job->claims[branch].stack;
    uint16_t top = stack->places[stack->depth - 1].level;
    uint32_t lowest = job->n;
    Region region;
    find_region(job, branch, &region);
    if (region.inside[job->n])
        return refuse(job, 14, branch, (Cause){.tag = EXIT_INSIDE, .at = job->n});
    for (uint32_t k = 0; k < region.count; k++) {
        uint32_t label = region.labels[k];
        if (label < lowest && !at_most(top, job->claims[label].surrounding))
            lowest = label;
    }
    if (lowest < job->n)
        return refuse(job, 15, branch, (Cause){.tag = LABEL_INSIDE, .at = lowest});
    return true;
}

static bool branches_hold(Job *job)
{
    for (uint32_t l = 0; l < job->n; l++)
        if (job->claims[l].claimed && job->code[l].op == GOTOF && !branch_holds(job, l))
            return false;
    return true;
}

Verdict plain_mount(const uint8_t *bytes, size_t length, uint32_t span, const uint16_t *levels)
{
    Job job;
    job.bytes = bytes;
    job.length = length;
    job.span = span;
    job.levels = levels;
    if (read_opening(&job) && read_instructions(&job) && read_claims(&job) && entry_holds(&job) && labels_hold(&job) &&
        branches_hold(&job))
        return (Verdict){.number = 0};
    return job.verdict;
}
