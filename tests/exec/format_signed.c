// %d and %i: flags, width, the least number.
#include <glib.h>

int main (int argc, char **argv)
{
    g_print ("[%d] [%i] [%5d] [%-5d] [%05d] [%3d]\n", 7, -7, 42, 42, -42, 123456);
    g_print ("[%d] [%012d] [%-05d] [%0-5d] [%--5d] [%00005d]\n", -2147483647 - 1, 7, 42, 42, 42, 42);
    g_print ("[%100d]\n", 1);
    g_print ("[%i%d]\n", 0, 2147483647);
    return 0;
}

// out: [7] [-7] [   42] [42   ] [-0042] [123456]
// out: [-2147483648] [000000000007] [42   ] [42   ] [42   ] [00042]
// out: [                                                                                                   1]
// out: [02147483647]
