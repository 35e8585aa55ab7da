// if, else, and a jump on a condition.
#include <glib.h>

int main (int argc, char **argv)
{
    gint i;
    i = 0;
    next: ;
    if (i == 0) {
        g_print ("zero\n");
    } else {
        if (i == 1) {
            g_print ("one\n");
        } else {
            goto out;
        }
    }
    i = i + 1;
    if (i < 5) goto next;
    out: ;
    g_print ("%d\n", i);
    return 0;
}

// out: zero
// out: one
// out: 2
