// A loop of labels and jumps.
#include <glib.h>

int main (int argc, char **argv)
{
    gint i;
    gint sum;
    i = 0;
    sum = 0;
    again: ;
    if (i < 10) {
        sum = sum + i;
        i = i + 1;
        goto again;
    }
    g_print ("%d\n", sum);
    return 0;
}

// out: 45
