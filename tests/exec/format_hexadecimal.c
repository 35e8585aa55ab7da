// %x and %X, also of 64 bits.
#include <glib.h>

int main (int argc, char **argv)
{
    g_print ("[%x] [%X] [%8x] [%-8x] [%08X] [%x]\n", 48879U, 48879U, 48879U, 48879U, 48879U, 0U);
    g_print ("[%lx] [%lX] [%llx] [%llX] [%x]\n", 18446744073709551615UL, 81985529216486895UL, 16UL, 171UL, 4294967295U);
    return 0;
}

// out: [beef] [BEEF] [    beef] [beef    ] [0000BEEF] [0]
// out: [ffffffffffffffff] [123456789ABCDEF] [10] [AB] [ffffffff]
