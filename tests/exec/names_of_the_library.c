// Variables, fields and labels may have the names of functions.
#include <glib.h>

typedef struct _P P;

struct _P {
    gint g_free;
};

int main (int argc, char **argv)
{
    P p;
    gint strlen;
    p.g_free = 1;
    strlen = 2;
    goto g_print;
    g_print: ;
    g_print ("%d %d\n", p.g_free, strlen);
    return 0;
}

// out: 1 2
