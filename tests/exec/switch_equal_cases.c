// Of equal cases the first decides.
#include <glib.h>

int main (int argc, char **argv)
{
    switch (1) {
        case 1: goto first;
        case 1: goto second;
        default: goto second;
    }
    first: ;
    g_print ("first\n");
    return 0;
    second: ;
    g_print ("second\n");
    return 0;
}

// out: first
// real: C refuses it
