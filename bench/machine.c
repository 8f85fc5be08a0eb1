/* The machine in plain C, written from the rules alone: a switch in a loop, with every check that the rules ask for. */
#include "machine.h"

#include <stdbool.h>
#include <string.h>

enum { STACK_LIMIT = 32, FOR_LIMIT = 8, VARIABLE_LIMIT = 64, CODE_LIMIT = 8192 };

enum { HEAD_LENGTH = 4, VARIABLE_LENGTH = 5, FIGURES_LENGTH = 6 };

enum { KIND_VARIABLES = 1, KIND_CODE = 2, KIND_FIGURES = 3 };

enum { TYPE_BOOL = 1, TYPE_DINT = 2 };

enum { DONE = 0, SPENT = 20, RANGE = 21, DIVIDE = 22, BAD_IMAGE = 23, BAD_TABLE = 24, BAD_CODE = 25 };

/* The codes, in the order of their numbers. */
enum {
    TICK = 0x01,
    CONST, LOAD, STORE,
    NEG, NOT,
    MUL, DIV, MOD, ADD, SUB,
    LT, GT, LE, GE, EQ, NE,
    AND, XOR, OR,
    JUMP, JUMP_IF_ZERO, SPAN, JUMP_IF_NOT_ZERO,
    DROP,
    HOLD, FIRST, NEXT,
    HALT
};

/* A part of the image. */
struct part {
    const uint8_t *bytes;
    size_t length;
};

static size_t word_at(const uint8_t *bytes)
{
    return (size_t)bytes[0] | (size_t)bytes[1] << 8;
}

static int32_t value_at(const uint8_t *bytes)
{
    uint32_t bits = bytes[0] | (uint32_t)bytes[1] << 8 | (uint32_t)bytes[2] << 16 | (uint32_t)bytes[3] << 24;
    int32_t value;

    memcpy(&value, &bits, sizeof value);
    return value;
}

static bool is_truth(int32_t value)
{
    return value == 0 || value == 1;
}

static bool is_bool(struct part variables, size_t slot)
{
    return variables.bytes[slot * VARIABLE_LENGTH] == TYPE_BOOL;
}

/* Whether a value is beyond the final value of a FOR. */
static bool passes(int64_t value, int32_t final, int32_t step)
{
    return step > 0 ? value > final : value < final;
}

/* Takes the payload of the record that must stand first; `rest` goes on behind it. */
static bool take_record(struct part *rest, size_t kind, struct part *payload)
{
    size_t length;

    if (rest->length < HEAD_LENGTH)
        return false;
    length = word_at(rest->bytes);
    if (word_at(rest->bytes + 2) != kind || length > rest->length - HEAD_LENGTH)
        return false;
    *payload = (struct part){ rest->bytes + HEAD_LENGTH, length };
    *rest = (struct part){ payload->bytes + length, rest->length - HEAD_LENGTH - length };
    return true;
}

static bool are_variables(struct part variables)
{
    const uint8_t *entry = variables.bytes;

    if (variables.length % VARIABLE_LENGTH != 0 || variables.length / VARIABLE_LENGTH > VARIABLE_LIMIT)
        return false;
    for (; entry != variables.bytes + variables.length; entry += VARIABLE_LENGTH)
        if (entry[0] != TYPE_DINT && !(entry[0] == TYPE_BOOL && is_truth(value_at(entry + 1))))
            return false;
    return true;
}

/* Exactly the three records; else number 23. */
static bool read_image(struct part image, struct part *variables, struct part *code)
{
    struct part figures;

    return take_record(&image, KIND_VARIABLES, variables)
        && take_record(&image, KIND_CODE, code)
        && take_record(&image, KIND_FIGURES, &figures)
        && are_variables(*variables)
        && code->length <= CODE_LIMIT
        && figures.length == FIGURES_LENGTH
        && image.length == 0;
}

/* One entry for each variable, a BOOL's 0 or 1; else number 24. */
static bool is_valid(struct part variables, const int32_t *table, size_t entries)
{
    size_t slot;

    if (entries != variables.length / VARIABLE_LENGTH)
        return false;
    for (slot = 0; slot < entries; slot++)
        if (is_bool(variables, slot) && !is_truth(table[slot]))
            return false;
    return true;
}

/* What the arms of the switch share. Nothing is changed before the last of an instruction's checks. */

/* The length stands in the arm, not in a table: the next fetch then waits for no load. */
#define OPERANDS(count) \
    do { \
        next = at + 1 + (count); \
        if (next > code.length) \
            goto bad; \
    } while (0)

#define TAKE_TWO \
    do { \
        if (height < 2) \
            goto bad; \
        left = stack[height - 2]; \
        right = stack[height - 1]; \
    } while (0)

/* Logic takes only 0 and 1. */
#define TAKE_TWO_TRUTHS \
    do { \
        TAKE_TWO; \
        if ((left | right) & ~(int64_t)1) \
            goto bad; \
    } while (0)

/* In place of the two. */
#define GIVE(result) \
    do { \
        stack[height - 2] = (int32_t)(result); \
        height--; \
    } while (0)

#define GIVE_EXACT(result) \
    do { \
        exact = (result); \
        if (exact < INT32_MIN || exact > INT32_MAX) \
            goto range; \
        GIVE(exact); \
    } while (0)

/* Back, and to itself, a jump is taken only to a TICK. */
#define JUMP_TO(to) \
    do { \
        target = (to); \
        if (target <= at && code.bytes[target] != TICK) \
            goto bad; \
        next = target; \
    } while (0)

/* Carries the code out from its start until an instruction stops the run. */
static int run_code(struct part variables, struct part code, int32_t *table, size_t entries, uint32_t budget,
                    struct report *out)
{
    int32_t stack[STACK_LIMIT];
    int32_t held[FOR_LIMIT] = { 0 };
    size_t height = 0, at = 0, next, target;
    uint32_t ticks = 0;
    uint64_t instructions = 0;
    const uint8_t *operands;
    int64_t left, right, exact;
    int32_t value, step;
    uint8_t byte;
    int outcome;

    for (;; at = next, instructions++) {
        if (at >= code.length)
            goto bad;
        byte = code.bytes[at];
        operands = code.bytes + at + 1;
        next = at + 1;
        switch (byte) {
        case TICK:
            if (ticks == budget)
                goto spent;
            ticks++;
            break;
        case CONST:
            OPERANDS(4);
            if (height == STACK_LIMIT)
                goto bad;
            stack[height++] = value_at(operands);
            break;
        case LOAD:
            OPERANDS(1);
            if (operands[0] >= entries || height == STACK_LIMIT)
                goto bad;
            stack[height++] = table[operands[0]];
            break;
        case STORE:
            OPERANDS(1);
            if (operands[0] >= entries || height == 0)
                goto bad;
            value = stack[height - 1];
            if (is_bool(variables, operands[0]) && !is_truth(value))
                goto bad;
            table[operands[0]] = value;
            height--;
            break;
        case NEG:
            if (height == 0)
                goto bad;
            if (stack[height - 1] == INT32_MIN)
                goto range;
            stack[height - 1] = -stack[height - 1];
            break;
        case NOT:
            if (height == 0 || !is_truth(stack[height - 1]))
                goto bad;
            stack[height - 1] = !stack[height - 1];
            break;
        case MUL:
            TAKE_TWO;
            GIVE_EXACT(left * right);
            break;
        case DIV:
            TAKE_TWO;
            if (right == 0)
                goto divide;
            GIVE_EXACT(left / right);
            break;
        case MOD:
            TAKE_TWO;
            if (right == 0)
                goto divide;
            GIVE_EXACT(left % right);
            break;
        case ADD:
            TAKE_TWO;
            GIVE_EXACT(left + right);
            break;
        case SUB:
            TAKE_TWO;
            GIVE_EXACT(left - right);
            break;
        case LT:
            TAKE_TWO;
            GIVE(left < right);
            break;
        case GT:
            TAKE_TWO;
            GIVE(left > right);
            break;
        case LE:
            TAKE_TWO;
            GIVE(left <= right);
            break;
        case GE:
            TAKE_TWO;
            GIVE(left >= right);
            break;
        case EQ:
            TAKE_TWO;
            GIVE(left == right);
            break;
        case NE:
            TAKE_TWO;
            GIVE(left != right);
            break;
        case AND:
            TAKE_TWO_TRUTHS;
            GIVE(left & right);
            break;
        case XOR:
            TAKE_TWO_TRUTHS;
            GIVE(left ^ right);
            break;
        case OR:
            TAKE_TWO_TRUTHS;
            GIVE(left | right);
            break;
        case JUMP:
            OPERANDS(2);
            JUMP_TO(word_at(operands));
            break;
        case JUMP_IF_ZERO:
        case JUMP_IF_NOT_ZERO:
            OPERANDS(2);
            if (height == 0)
                goto bad;
            if ((stack[height - 1] == 0) == (byte == JUMP_IF_ZERO))
                JUMP_TO(word_at(operands));
            height--;
            break;
        case SPAN:
            OPERANDS(4 + 4);
            if (height == 0 || height == STACK_LIMIT)
                goto bad;
            value = stack[height - 1];
            stack[height++] = value_at(operands) <= value && value <= value_at(operands + 4);
            break;
        case DROP:
            if (height == 0)
                goto bad;
            height--;
            break;
        case HOLD:
            OPERANDS(1);
            if (operands[0] >= FOR_LIMIT || height == 0)
                goto bad;
            held[operands[0]] = stack[--height];
            break;
        case FIRST:
        case NEXT:
            OPERANDS(1 + 1 + 4 + 2);
            step = value_at(operands + 2);
            if (operands[0] >= FOR_LIMIT || operands[1] >= entries || step == 0 || is_bool(variables, operands[1]))
                goto bad;
            value = table[operands[1]];
            if (byte == FIRST) {
                if (passes(value, held[operands[0]], step))
                    JUMP_TO(word_at(operands + 6));
            } else if (!passes((int64_t)value + step, held[operands[0]], step)) {
                JUMP_TO(word_at(operands + 6));
                /* It lies between the variable and the final value, so it is in range. */
                table[operands[1]] = value + step;
            }
            break;
        case HALT:
            instructions++;
            outcome = DONE;
            goto stopped;
        default:
            goto bad;
        }
    }
spent:
    outcome = SPENT;
    goto stopped;
range:
    outcome = RANGE;
    goto stopped;
divide:
    outcome = DIVIDE;
    goto stopped;
bad:
    outcome = BAD_CODE;
stopped:
    *out = (struct report){ .ticks = ticks, .instructions = instructions, .offset = at };
    return outcome;
}

int c_run(const uint8_t *image, size_t length, int32_t *table, size_t entries, uint32_t budget, struct report *out)
{
    struct part variables, code;

    /* 23 and 24 report no ticks, no instructions, offset 0. */
    *out = (struct report){ 0 };
    if (!read_image((struct part){ image, length }, &variables, &code))
        return BAD_IMAGE;
    if (!is_valid(variables, table, entries))
        return BAD_TABLE;
    return run_code(variables, code, table, entries, budget, out);
}
