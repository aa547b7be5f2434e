/* How long a step takes: the proved run, a C interpreter with the same checks, and one without checks. And how long a
 * mount takes: the proved one, and the one in plain C of mount.c.
 * run.sh builds this with PLACE bytes before all code, since where code lies moves its speed. */
#include "mount.h"

#include <stdio.h>
#include <stdlib.h>
#include <string.h>
#include <time.h>

#define TEXT_OF(x) #x
#define FILL(bytes) ".text\n.fill " TEXT_OF(bytes) ", 1, 0x90\n"
__asm__(FILL(PLACE));

/* The proved library. Its slices are a pointer and a length. */
uint32_t nextabur_mount(const uint8_t *job, size_t length);
uint64_t nextabur_run(const uint8_t *job, size_t length, uint32_t budget);

/* The same of another edition, where run.sh is given one. */
__attribute__((weak)) uint32_t before_mount(const uint8_t *job, size_t length);

enum { EXIT = DROP + 1 }; /* an instruction of the unchecked interpreter alone */
enum { GOING, HALTED, FAULTED };

static void die(const char *what, const char *name)
{
    fprintf(stderr, "bench: %s: %s\n", name, what);
    exit(1);
}

/* ---- A job: its instructions, and its bytes with claims. */

typedef struct {
    const char *name;
    uint32_t n;
    Instruction code[LABELS];
    uint32_t places;
    size_t length;
    uint8_t bytes[LONGEST];
} Job;

static uint32_t add(Job *job, uint8_t op, int32_t operand)
{
    if (job->n == LABELS)
        die("more than 128 instructions", job->name);
    job->code[job->n] = (Instruction){op, 0, operand};
    return job->n++;
}

/* A goto or gotoF goes to the label that comes next. */
static void lands_here(Job *job, uint32_t jump)
{
    job->code[jump].operand = (int32_t)job->n;
}

/* The label that comes next is a branch's junction. */
static void meets_here(Job *job, uint32_t branch)
{
    job->code[branch].junction = (uint8_t)job->n;
}

/* A claim's stack, bottom first. Every level is 0. */
typedef struct {
    uint8_t claimed, depth, kinds[PLACES + 2];
} Claim;

static void flow(Claim *claims, uint32_t to, const Claim *from, uint32_t n)
{
    if (to < n)
        claims[to] = *from;
}

/* One pass suffices, since each label of these jobs is reached from an earlier one first. */
static void claim_all(const Job *job, Claim *claims)
{
    claims[0].claimed = 1;
    for (uint32_t l = 0; l < job->n; l++) {
        Claim c = claims[l];
        Instruction i = job->code[l];
        if (!c.claimed)
            continue;
        switch (i.op) {
        case LOAD: case PUSH: c.kinds[c.depth++] = INTEGER; break;
        case ADD: case SUB: c.kinds[--c.depth - 1] = INTEGER; break;
        case EQ: case LESS: c.kinds[--c.depth - 1] = BOOLEAN; break;
        case STORE: case GOTOF: case DROP: c.depth--; break;
        case COPY: c.kinds[c.depth] = c.kinds[c.depth - 1]; c.depth++; break;
        case SWAP: {
            uint8_t top = c.kinds[c.depth - 1];
            c.kinds[c.depth - 1] = c.kinds[c.depth - 2];
            c.kinds[c.depth - 2] = top;
            break;
        }
        }
        if (i.op != GOTO)
            flow(claims, l + 1, &c, job->n);
        if (i.op == GOTO || i.op == GOTOF)
            flow(claims, (uint32_t)i.operand, &c, job->n);
    }
}

static void write_bytes(Job *job, const Claim *claims)
{
    uint8_t *at = job->bytes;
    *at++ = (uint8_t)job->n;
    *at++ = 0;
    *at++ = (uint8_t)job->places;
    *at++ = 0;
    for (uint32_t l = 0; l < job->n; l++) {
        uint32_t operand = (uint32_t)job->code[l].operand;
        *at++ = job->code[l].op;
        *at++ = job->code[l].junction;
        for (int k = 0; k < 4; k++)
            *at++ = (uint8_t)(operand >> (8 * k));
    }
    for (uint32_t l = 0; l < job->n; l++) {
        const Claim *c = &claims[l];
        memset(at, 0, 4 + 3 * job->places);
        at[0] = c->claimed;
        at[1] = c->claimed ? c->depth : 0;
        for (uint32_t i = 0; c->claimed && i < c->depth; i++)
            at[4 + 3 * i] = c->kinds[c->depth - 1 - i];
        at += 4 + 3 * job->places;
    }
    job->length = (size_t)(at - job->bytes);
}

static void finish(Job *job)
{
    Claim claims[LABELS];
    memset(claims, 0, sizeof claims);
    claim_all(job, claims);
    write_bytes(job, claims);
    if (nextabur_mount(job->bytes, job->length) != 0)
        die("not accepted", job->name);
}

/* Adds a constant to a variable. */
static void increase(Job *job, int32_t variable, int32_t by)
{
    add(job, LOAD, variable);
    add(job, PUSH, by);
    add(job, ADD, 0);
    add(job, STORE, variable);
}

/* Begins what is done where a variable is below a bound; the answer is the branch. */
static uint32_t if_below(Job *job, int32_t variable, int32_t bound)
{
    add(job, LOAD, variable);
    add(job, PUSH, bound);
    add(job, LESS, 0);
    return add(job, GOTOF, 0);
}

/* Counts variable 0 up to a limit: 9 instructions. */
static void make_counting_loop(Job *job, const char *name, int32_t limit)
{
    *job = (Job){.name = name, .places = 2};
    increase(job, 0, 1);
    uint32_t end = if_below(job, 0, limit);
    add(job, GOTO, 0);
    lands_here(job, end);
    meets_here(job, end);
    finish(job);
}

/* Halves a range so many times, by where variable 0 lies in it, and adds what is left of it to variable 1. */
static void nest(Job *job, int32_t low, int32_t high, int depth)
{
    if (depth == 0) {
        increase(job, 1, low);
        return;
    }
    int32_t middle = (low + high) / 2;
    uint32_t branch = if_below(job, 0, middle);
    nest(job, low, middle, depth - 1);
    uint32_t over = add(job, GOTO, 0);
    lands_here(job, branch);
    nest(job, middle, high, depth - 1);
    lands_here(job, over);
    meets_here(job, branch);
}

/* Walks variable 0 through 0 to 99 in steps of 37, and finds its eighth by branches nested three deep: 81 instructions. */
static void make_nest(Job *job)
{
    *job = (Job){.name = "nest of branches", .places = 2};
    increase(job, 0, 37);
    uint32_t wrap = if_below(job, 0, 100);
    uint32_t over = add(job, GOTO, 0);
    lands_here(job, wrap);
    increase(job, 0, -100);
    lands_here(job, over);
    meets_here(job, wrap);
    nest(job, 0, 100, 3);
    add(job, GOTO, 0);
    finish(job);
}

/* Sums and differences of constants and variables, with no branch: 127 instructions. */
static void make_straight(Job *job)
{
    *job = (Job){.name = "straight arithmetic", .places = 3};
    add(job, LOAD, 0);
    for (int block = 0; block < 31; block++) {
        add(job, PUSH, block * 7919);
        if (block % 3 == 0) {
            add(job, ADD, 0);
            add(job, LOAD, block % VARIABLES);
            add(job, SUB, 0);
        } else {
            add(job, PUSH, block + 1);
            add(job, SUB, 0);
            add(job, ADD, 0);
        }
    }
    add(job, STORE, 0);
    add(job, GOTO, 0);
    finish(job);
}

/* Adds a constant to a copy of the top, or takes it away, and drops the original: 5 instructions. */
static void change_copy(Job *job, uint8_t op, int32_t by)
{
    add(job, COPY, 0);
    add(job, PUSH, by);
    add(job, op, 0);
    add(job, SWAP, 0);
    add(job, DROP, 0);
}

/* Makes ten variables anew in turn, each as x - y + c of the two before it: 116 instructions, of which 55 copy, swap or
 * drop. No value comes near an end of the range, and three rounds bring back the same values. */
static void make_copies(Job *job)
{
    *job = (Job){.name = "copies and swaps", .places = 4};
    for (int block = 0; block < 10; block++) {
        int32_t c = 7919 * (block + 1);
        int32_t x = (block + 9) % 10, y = (block + 8) % 10;
        if (block % 2 == 0) { /* (x + c) - y */
            add(job, LOAD, y);
            add(job, LOAD, x);
            change_copy(job, ADD, c);
            add(job, SWAP, 0);
        } else { /* x - (y - c) */
            add(job, LOAD, x);
            add(job, LOAD, y);
            change_copy(job, SUB, c);
        }
        add(job, SUB, 0);
        add(job, COPY, 0);
        add(job, STORE, block);
        add(job, DROP, 0);
    }
    add(job, GOTO, 0);
    finish(job);
}

/* A test pops a value. A run answers only its status and its steps, so a job of tests halts after them, and goes round
 * for ever where one fails. */
static void expect(Job *job, int32_t number)
{
    add(job, PUSH, number);
    add(job, EQ, 0);
    add(job, GOTOF, 0);
}

/* Every gotoF of a job of tests is a test, and goes to the label that goes to itself. */
static void end_tests(Job *job)
{
    uint32_t over = add(job, GOTO, 0);
    uint32_t failed = add(job, GOTO, (int32_t)job->n);
    lands_here(job, over);
    for (uint32_t l = 0; l < over; l++) {
        if (job->code[l].op == GOTOF) {
            job->code[l].operand = (int32_t)failed;
            job->code[l].junction = (uint8_t)(l + 1);
        }
    }
    finish(job);
}

/* Sums and differences at the ends of the range and past them: 122 instructions. */
static void make_ends(Job *job)
{
    static const struct {
        int32_t u, t, sum, difference;
    } rows[] = {
        {INT32_MAX, 1, INT32_MAX, INT32_MAX - 1},
        {INT32_MAX, -1, INT32_MAX - 1, INT32_MAX},
        {INT32_MIN, 1, INT32_MIN + 1, INT32_MIN},
        {INT32_MIN, -1, INT32_MIN, INT32_MIN + 1},
        {INT32_MAX, INT32_MAX, INT32_MAX, 0},
        {INT32_MIN, INT32_MIN, INT32_MIN, 0},
        {INT32_MAX, INT32_MIN, -1, INT32_MAX},
        {INT32_MIN, INT32_MAX, -1, INT32_MIN},
        {0, INT32_MIN, INT32_MIN, INT32_MAX},
        {-1, INT32_MIN, INT32_MIN, INT32_MAX},
    };
    *job = (Job){.name = "ends of the range", .places = 2};
    for (size_t row = 0; row < sizeof rows / sizeof rows[0]; row++) {
        add(job, PUSH, rows[row].u);
        add(job, PUSH, rows[row].t);
        add(job, ADD, 0);
        expect(job, rows[row].sum);
        add(job, PUSH, rows[row].u);
        add(job, PUSH, rows[row].t);
        add(job, SUB, 0);
        expect(job, rows[row].difference);
    }
    end_tests(job);
}

/* What copy, swap and drop leave of integers, of booleans and of a full stack: 54 instructions. */
static void make_shapes(Job *job)
{
    *job = (Job){.name = "shapes of the stack", .places = PLACES};
    add(job, PUSH, 3); /* 7 - (3 + 3) */
    add(job, COPY, 0);
    add(job, ADD, 0);
    add(job, PUSH, 7);
    add(job, SWAP, 0);
    add(job, SUB, 0);
    expect(job, 1);

    add(job, PUSH, 4);
    add(job, PUSH, 5);
    add(job, DROP, 0);
    expect(job, 4);

    add(job, PUSH, 7); /* 7 and true change places, and 7 is stored */
    add(job, PUSH, 1);
    add(job, PUSH, 2);
    add(job, LESS, 0);
    add(job, SWAP, 0);
    add(job, STORE, 1);
    add(job, GOTOF, 0);
    add(job, LOAD, 1);
    expect(job, 7);

    add(job, PUSH, 2); /* of false and its opposite, made of a copy, the opposite is left */
    add(job, PUSH, 1);
    add(job, LESS, 0);
    add(job, COPY, 0);
    add(job, NOT, 0);
    add(job, SWAP, 0);
    add(job, DROP, 0);
    add(job, GOTOF, 0);

    add(job, PUSH, 1); /* eight times 1 */
    for (int place = 1; place < PLACES; place++)
        add(job, COPY, 0);
    for (int place = 1; place < PLACES; place++)
        add(job, ADD, 0);
    expect(job, PLACES);
    end_tests(job);
}

/* The largest job, 128 instructions and 4,356 bytes, with 16 branches over stacks of up to 8 places. */
static void make_largest(Job *job)
{
    *job = (Job){.name = "largest", .places = 8};
    for (int i = 0; i < 6; i++)
        add(job, PUSH, i);
    for (int i = 0; i < 16; i++) {
        uint32_t branch = if_below(job, i, 5);
        add(job, PUSH, 1);
        add(job, ADD, 0);
        lands_here(job, branch);
        meets_here(job, branch);
    }
    for (int i = 0; i < 6; i++)
        add(job, STORE, i);
    while (job->n < LABELS - 1)
        add(job, GOTO, (int32_t)job->n + 1);
    add(job, GOTO, 0);
    finish(job);
    if (job->length != LONGEST)
        die("not the longest", job->name);
}

/* The same size, almost all branches: again and again eight, which pop eight claimed booleans, and a goto. */
static void make_most_branches(Job *job)
{
    Claim claims[LABELS];
    memset(claims, 0, sizeof claims);
    *job = (Job){.name = "most branches", .places = 8};
    add(job, GOTO, 0);
    claims[0].claimed = 1;
    while (job->n < LABELS) {
        uint32_t l = job->n, left = 8 - (l - 1) % 9;
        claims[l].claimed = 1;
        claims[l].depth = (uint8_t)left;
        memset(claims[l].kinds, BOOLEAN, left);
        if (left == 0 || l == LABELS - 1) {
            claims[l].depth = 0;
            add(job, GOTO, 0);
        } else {
            add(job, GOTOF, (int32_t)l + 1);
        }
    }
    write_bytes(job, claims);
    if (nextabur_mount(job->bytes, job->length) != 0)
        die("not accepted", job->name);
}

/* The same size, with 96 branches, and all 128 labels in the region of each: seven booleans, and then again and again an
 * eighth, eight branches and a goto to the head. There is a way from each label to each, and every junction is the exit. */
static void make_longest_regions(Job *job)
{
    *job = (Job){.name = "longest regions", .places = 8};
    add(job, PUSH, 0);
    add(job, PUSH, 0);
    add(job, EQ, 0);
    for (int i = 1; i < 7; i++)
        add(job, COPY, 0);
    while (job->n < LABELS) {
        uint32_t first = add(job, COPY, 0) + 1;
        for (uint32_t l = first; l < first + 8; l++)
            job->code[add(job, GOTOF, (int32_t)l + 1)].junction = LABELS;
        if (job->n < LABELS) {
            add(job, GOTO, 0);
            lands_here(job, first);
        }
    }
    job->code[LABELS - 1].operand = 0;
    finish(job);
}

/* ---- The two C interpreters. */

typedef struct {
    int status;
    uint32_t steps;
} End;

/* Sums and differences stop at the ends of the range. Which end is passed shows in the sign of t. */
static int32_t nearest_add(int32_t u, int32_t t)
{
    int32_t exact;
    if (__builtin_add_overflow(u, t, &exact))
        return t < 0 ? INT32_MIN : INT32_MAX;
    return exact;
}

static int32_t nearest_sub(int32_t u, int32_t t)
{
    int32_t exact;
    if (__builtin_sub_overflow(u, t, &exact))
        return t < 0 ? INT32_MAX : INT32_MIN;
    return exact;
}

typedef struct {
    uint8_t kind;
    int32_t number;
} Value;

/* Tests the label, the depth and the kinds at each step. Operands are in range: mount has seen to that. */
__attribute__((noinline))
static End run_checked(const Instruction *code, uint32_t n, int32_t *values, uint32_t budget)
{
    Value stack[PLACES];
    uint32_t depth = 0, label = 0, steps = 0;

    while (steps < budget && label < n) {
        Instruction i = code[label];
        switch (i.op) {
        case LOAD:
            if (depth == PLACES)
                return (End){FAULTED, steps};
            stack[depth++] = (Value){INTEGER, values[i.operand]};
            label++;
            break;
        case STORE:
            if (depth < 1 || stack[depth - 1].kind != INTEGER)
                return (End){FAULTED, steps};
            values[i.operand] = stack[--depth].number;
            label++;
            break;
        case PUSH:
            if (depth == PLACES)
                return (End){FAULTED, steps};
            stack[depth++] = (Value){INTEGER, i.operand};
            label++;
            break;
        case ADD:
            if (depth < 2 || stack[depth - 1].kind != INTEGER || stack[depth - 2].kind != INTEGER)
                return (End){FAULTED, steps};
            depth--;
            stack[depth - 1].number = nearest_add(stack[depth - 1].number, stack[depth].number);
            label++;
            break;
        case SUB:
            if (depth < 2 || stack[depth - 1].kind != INTEGER || stack[depth - 2].kind != INTEGER)
                return (End){FAULTED, steps};
            depth--;
            stack[depth - 1].number = nearest_sub(stack[depth - 1].number, stack[depth].number);
            label++;
            break;
        case EQ:
            if (depth < 2 || stack[depth - 1].kind != INTEGER || stack[depth - 2].kind != INTEGER)
                return (End){FAULTED, steps};
            depth--;
            stack[depth - 1] = (Value){BOOLEAN, stack[depth - 1].number == stack[depth].number};
            label++;
            break;
        case LESS:
            if (depth < 2 || stack[depth - 1].kind != INTEGER || stack[depth - 2].kind != INTEGER)
                return (End){FAULTED, steps};
            depth--;
            stack[depth - 1] = (Value){BOOLEAN, stack[depth - 1].number < stack[depth].number};
            label++;
            break;
        case NOT:
            if (depth < 1 || stack[depth - 1].kind != BOOLEAN)
                return (End){FAULTED, steps};
            stack[depth - 1].number = !stack[depth - 1].number;
            label++;
            break;
        case GOTO:
            label = (uint32_t)i.operand;
            break;
        case GOTOF:
            if (depth < 1 || stack[depth - 1].kind != BOOLEAN)
                return (End){FAULTED, steps};
            label = stack[--depth].number ? label + 1 : (uint32_t)i.operand;
            break;
        case COPY:
            if (depth < 1 || depth == PLACES)
                return (End){FAULTED, steps};
            stack[depth] = stack[depth - 1];
            depth++;
            label++;
            break;
        case SWAP: {
            if (depth < 2)
                return (End){FAULTED, steps};
            Value top = stack[depth - 1];
            stack[depth - 1] = stack[depth - 2];
            stack[depth - 2] = top;
            label++;
            break;
        }
        case DROP:
            if (depth < 1)
                return (End){FAULTED, steps};
            depth--;
            label++;
            break;
        default:
            __builtin_unreachable();
        }
        steps++;
    }
    return (End){label == n ? HALTED : GOING, steps};
}

/* Tests nothing: values have no kind, and an instruction of its own stands at the exit. */
__attribute__((noinline))
static End run_unchecked(const Instruction *code, int32_t *values, uint32_t budget)
{
    int32_t stack[PLACES];
    int32_t *top = stack; /* the next free place */
    const Instruction *at = code;
    uint32_t steps = 0;

    while (steps < budget) {
        switch (at->op) {
        case LOAD:
            *top++ = values[at->operand];
            at++;
            break;
        case STORE:
            values[at->operand] = *--top;
            at++;
            break;
        case PUSH:
            *top++ = at->operand;
            at++;
            break;
        case ADD:
            top--;
            top[-1] = nearest_add(top[-1], top[0]);
            at++;
            break;
        case SUB:
            top--;
            top[-1] = nearest_sub(top[-1], top[0]);
            at++;
            break;
        case EQ:
            top--;
            top[-1] = top[-1] == top[0];
            at++;
            break;
        case LESS:
            top--;
            top[-1] = top[-1] < top[0];
            at++;
            break;
        case NOT:
            top[-1] = !top[-1];
            at++;
            break;
        case GOTO:
            at = code + at->operand;
            break;
        case GOTOF:
            at = *--top ? at + 1 : code + at->operand;
            break;
        case COPY:
            top[0] = top[-1];
            top++;
            at++;
            break;
        case SWAP: {
            int32_t last = top[-1];
            top[-1] = top[-2];
            top[-2] = last;
            at++;
            break;
        }
        case DROP:
            top--;
            at++;
            break;
        case EXIT:
            return (End){HALTED, steps};
        default:
            __builtin_unreachable();
        }
        steps++;
    }
    return (End){at->op == EXIT ? HALTED : GOING, steps};
}

/* ---- Engines and measurements. */

enum { JOBS = 4 }; /* that are measured */

enum { PROVED, CHECKED, UNCHECKED, ENGINES };
static const char *const engine_names[ENGINES] = {"proved", "checked", "unchecked"};

/* What a run from values that are all 0 answers: the status × 2^32 + the steps. */
static uint64_t run(int engine, const Job *job, uint32_t budget)
{
    Instruction code[LABELS + 1];
    int32_t values[VARIABLES] = {0};
    End end;
    if (engine == PROVED)
        return nextabur_run(job->bytes, job->length, budget);
    memcpy(code, job->code, sizeof job->code);
    code[job->n] = (Instruction){EXIT, 0, 0};
    end = engine == CHECKED ? run_checked(code, job->n, values, budget) : run_unchecked(code, values, budget);
    return ((uint64_t)end.status << 32) + end.steps;
}

static void must_agree(const Job *job, uint32_t budget)
{
    uint64_t proved = run(PROVED, job, budget);
    if (run(CHECKED, job, budget) != proved || run(UNCHECKED, job, budget) != proved)
        die("the three do not agree", job->name);
}

/* A job of tests halts only where none of them fails. */
static void must_halt(const Job *job)
{
    if (run(PROVED, job, 2000) >> 32 != HALTED)
        die("does not halt", job->name);
}

/* ---- The two mounts, as number × 65,536 + label. */

enum { GRADES = 16, MOUNTED = 4 /* jobs whose mount is measured */, MOUNTS = 3 };

static uint32_t mount_plain(const uint8_t *job, size_t length)
{
    static const uint16_t levels[VARIABLES]; /* all 0 */
    Verdict verdict = plain_mount(job, length, GRADES, levels);
    return verdict.number * 0x10000 + verdict.label;
}

static const struct {
    const char *name;
    uint32_t (*mount)(const uint8_t *job, size_t length);
} mounts[MOUNTS] = {{"mount-proved", nextabur_mount}, {"mount-plain", mount_plain}, {"mount-before", before_mount}};

/* The answer is the number. */
static uint32_t must_mount_alike(const uint8_t *bytes, size_t length, const char *name)
{
    uint32_t proved = nextabur_mount(bytes, length);
    for (int m = 0; m < MOUNTS && mounts[m].mount; m++)
        if (mounts[m].mount(bytes, length) != proved)
            die("the mounts do not agree", name);
    return proved >> 16;
}

static uint8_t any_byte(void)
{
    static uint32_t state = 2463534242;
    state ^= state << 13;
    state ^= state >> 17;
    state ^= state << 5;
    return (uint8_t)(state >> 24);
}

/* A job with each byte replaced in turn, and with bytes cut off or added. Each number that comes is noted. */
static void must_mount_broken_alike(const Job *job, uint8_t *numbers)
{
    uint8_t bytes[LONGEST + 4] = {0};
    memcpy(bytes, job->bytes, job->length);
    for (size_t length = 0; length <= job->length + 4; length++)
        numbers[must_mount_alike(bytes, length, job->name)] = 1;
    for (size_t at = 0; at < job->length; at++) {
        uint8_t right = bytes[at];
        uint8_t others[] = {right + 1, right - 1, 0, 1, 255, any_byte(), any_byte() % 16, any_byte() % 16};
        for (size_t k = 0; k < sizeof others; k++) {
            bytes[at] = others[k];
            if (others[k] != right)
                numbers[must_mount_alike(bytes, job->length, job->name)] = 1;
        }
        bytes[at] = right;
    }
}

/* The numbers of a mount are 0, and 4 to 15. */
static void must_have_come(const uint8_t *numbers)
{
    for (int number = 0; number < 16; number++)
        if (!numbers[number] && (number == 0 || number > 3))
            die("no mount answers one of the numbers", "broken jobs");
}

static double seconds(void)
{
    struct timespec t;
    clock_gettime(CLOCK_MONOTONIC, &t);
    return (double)t.tv_sec + (double)t.tv_nsec * 1e-9;
}

static void measure(const Job *job, uint32_t budget, int times)
{
    double best[ENGINES] = {0};
    uint64_t answer[ENGINES];
    for (int time = 0; time < times; time++) {
        for (int engine = 0; engine < ENGINES; engine++) {
            double begin = seconds();
            answer[engine] = run(engine, job, budget);
            double spent = seconds() - begin;
            if (time == 0 || spent < best[engine])
                best[engine] = spent;
            if (answer[engine] != budget) /* going, with every step made */
                die("did not make every step", job->name);
        }
    }
    double ns = 1e9 / budget;
    printf("step|%s|%u|%.3f|%.3f|%.3f\n", job->name, job->n, best[PROVED] * ns, best[CHECKED] * ns, best[UNCHECKED] * ns);
}

static uint32_t branches(const Job *job)
{
    uint32_t count = 0;
    for (uint32_t l = 0; l < job->n; l++)
        count += job->code[l].op == GOTOF;
    return count;
}

static void measure_mount(const Job *job, int calls, int times)
{
    double best[MOUNTS] = {0};
    for (int time = 0; time < times; time++) {
        for (int m = 0; m < MOUNTS && mounts[m].mount; m++) {
            uint32_t refused = 0;
            double begin = seconds();
            for (int call = 0; call < calls; call++)
                refused |= mounts[m].mount(job->bytes, job->length);
            double spent = seconds() - begin;
            if (time == 0 || spent < best[m])
                best[m] = spent;
            if (refused)
                die("not accepted", job->name);
        }
    }
    double us = 1e6 / calls;
    printf("mount|%s|%u|%zu|%u|%.3f|%.3f|%.3f\n", job->name, job->n, job->length, branches(job), best[0] * us,
           best[1] * us, best[2] * us);
}

/* ENGINE JOB BUDGET is one run, and MOUNT JOB TIMES so many mounts, for a count of their machine instructions. */
static void run_or_mount(char **argv, const Job *jobs, const Job *const *mounted)
{
    int job = atoi(argv[2]);
    uint32_t times = (uint32_t)strtoul(argv[3], 0, 10);
    for (int engine = 0; engine < ENGINES; engine++)
        if (strcmp(argv[1], engine_names[engine]) == 0)
            printf("%llu\n", (unsigned long long)run(engine, &jobs[job % JOBS], times));
    for (int m = 0; m < MOUNTS && mounts[m].mount; m++) {
        if (strcmp(argv[1], mounts[m].name) != 0)
            continue;
        uint32_t refused = 0;
        for (uint32_t time = 0; time < times; time++)
            refused |= mounts[m].mount(mounted[job % MOUNTED]->bytes, mounted[job % MOUNTED]->length);
        printf("%u\n", refused);
    }
}

/* What is measured answers alike first, on these jobs and on some more. */
static void must_be_right(const Job *jobs, const Job *const *mounted)
{
    static Job short_loop, ends, shapes;
    const Job *const tested[] = {&jobs[0], &jobs[1], &jobs[2], &jobs[3], &short_loop, &ends, &shapes, mounted[0],
                                 mounted[1], mounted[2]};
    size_t count = sizeof tested / sizeof tested[0];
    uint8_t numbers[16] = {0};
    make_counting_loop(&short_loop, "short loop", 20);
    make_ends(&ends);
    make_shapes(&shapes);
    must_halt(&short_loop);
    must_halt(&ends);
    must_halt(&shapes);
    for (uint32_t budget = 0; budget < 2000; budget++)
        for (size_t job = 0; job < count; job++)
            must_agree(tested[job], budget);
    for (int job = 0; job < MOUNTED; job++)
        must_mount_alike(mounted[job]->bytes, mounted[job]->length, mounted[job]->name);
    for (size_t job = 0; job < count; job++)
        must_mount_broken_alike(tested[job], numbers);
    must_have_come(numbers);
}

int main(int argc, char **argv)
{
    static Job jobs[JOBS], largest, most, longest;
    const Job *const mounted[MOUNTED] = {&largest, &most, &longest, &jobs[2]};
    make_counting_loop(&jobs[0], "counting loop", 2000000000);
    make_nest(&jobs[1]);
    make_straight(&jobs[2]);
    make_copies(&jobs[3]);
    make_largest(&largest);
    make_most_branches(&most);
    make_longest_regions(&longest);

    if (argc == 4) {
        run_or_mount(argv, jobs, mounted);
        return 0;
    }

    must_be_right(jobs, mounted);
    for (int job = 0; job < JOBS; job++)
        measure(&jobs[job], 100000000, 3);
    for (int job = 0; job < MOUNTED; job++)
        measure_mount(mounted[job], 200, 5);
    return 0;
}
