/* Links a program against a C library before 2.33: what the start of a program asks the C library since then, whether the
 * processor has all of x86-64-v2. `active_array[2]` has the bits of ecx that are asked for; all others are 0. */
#include <cpuid.h>

struct cpuid_feature {
    unsigned cpuid_array[4];
    unsigned active_array[4];
};

/* CMPXCHG16B, POPCNT, SSE3, SSSE3, SSE4.1 and SSE4.2 of leaf 1, which has the index 0 */
#define IN_LEAF_1 (bit_CMPXCHG16B | bit_POPCNT | bit_SSE3 | bit_SSSE3 | bit_SSE4_1 | bit_SSE4_2)
/* LAHF and SAHF of leaf 0x80000001, which has the index 2 */
#define IN_LEAF_80000001 bit_LAHF_LM

const struct cpuid_feature *__x86_get_cpuid_feature_leaf(unsigned index)
{
    static struct cpuid_feature found[3], none;
    unsigned a, b, c, d;

    if (index == 0 && __get_cpuid(1, &a, &b, &c, &d))
        found[0].active_array[2] = c & IN_LEAF_1;
    if (index == 2 && __get_cpuid(0x80000001, &a, &b, &c, &d))
        found[2].active_array[2] = c & IN_LEAF_80000001;
    return index < 3 ? &found[index] : &none;
}
