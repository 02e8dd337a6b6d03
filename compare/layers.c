/* Makes the calls on layers that the program compare_layers asks for: see lent.h. */
enum { BUFFERS = 3, LARGEST_BUFFER = 80000 };

#include "lent.h"

static void say_number(tishkolan_number_answer answer)
{
    refusal = answer.refusal;
    value[0] = (uint64_t)(int64_t)answer.value;
}

static void say_bits(tishkolan_bits_answer answer)
{
    refusal = answer.refusal;
    value[0] = answer.bits;
}

static void say_count(tishkolan_count_answer answer)
{
    refusal = answer.refusal;
    value[0] = answer.count;
}

static void say_kept(tishkolan_kept_answer answer)
{
    refusal = answer.refusal;
    value[0] = answer.found;
    value[1] = answer.kept;
    value[2] = answer.count;
}

static void say_load(tishkolan_load_answer answer)
{
    refusal = answer.refusal;
    value[0] = answer.place;
    value[1] = answer.flags;
    value[2] = answer.values;
}

static void say_length(tishkolan_length_answer answer)
{
    refusal = answer.refusal;
    value[0] = answer.length;
}

static void make_call(int call, uint8_t *buffer[BUFFERS])
{
    uint8_t *a = buffer[0], *b = buffer[1], *c = buffer[2];
    const size_t al = length[0], bl = length[1], cl = length[2], count = number[0];
    const uint32_t flags = (uint32_t)number[0], flag = (uint32_t)number[1];

    switch (call) {
    case 1: say_count(tishkolan_flags_set(a, al, count, b, bl, (uint32_t)number[1])); break;
    case 2: say_kept(tishkolan_flags_get(a, al, count, b, bl)); break;
    case 3: say_kept(tishkolan_flags_remove(a, al, count, b, bl)); break;
    case 4: say_number(tishkolan_flags_contains(a, al, count, b, bl)); break;
    case 5: tishkolan_flags_clear(a, al); break;
    case 6: say_count(tishkolan_flags_count(a, al, count)); break;
    case 7: say_number(tishkolan_flags_is_empty(a, al, count)); break;
    case 8: say_count(tishkolan_flags_list(a, al, count, b, bl)); break;
    case 11: say_count(tishkolan_values_set(a, al, count, b, bl, number[1])); break;
    case 12: say_kept(tishkolan_values_get(a, al, count, b, bl)); break;
    case 13: say_kept(tishkolan_values_remove(a, al, count, b, bl)); break;
    case 14: say_number(tishkolan_values_contains(a, al, count, b, bl)); break;
    case 15: tishkolan_values_clear(a, al); break;
    case 16: say_count(tishkolan_values_count(a, al, count)); break;
    case 17: say_number(tishkolan_values_is_empty(a, al, count)); break;
    case 18: say_count(tishkolan_values_list(a, al, count, b, bl)); break;
    case 21: say_bits(tishkolan_values_aggregate(a, al, count, b, bl, (uint32_t)number[1])); break;
    case 22:
        say_count(tishkolan_values_rollup(a, al, count, (uint32_t)number[1], b, bl, number[2]));
        break;
    case 31: say_load(tishkolan_survey_load(a, al, b, bl, number[0], c, cl, number[1])); break;
    case 32: say_length(tishkolan_survey_write(a, al, number[0], b, bl, number[1], c, cl)); break;
    case 41: value[0] = tishkolan_has_flag(flags, flag); break;
    case 42: value[0] = tishkolan_set_flag(flags, flag); break;
    case 43: value[0] = tishkolan_clear_flag(flags, flag); break;
    case 44: value[0] = tishkolan_is_blocked(flags); break;
    default:
        fprintf(stderr, "layers: there is no call %d\n", call);
        exit(2);
    }
}
