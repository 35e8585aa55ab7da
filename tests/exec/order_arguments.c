// Arguments are evaluated from the left, and the place of a result before its call.
#include <glib.h>

static gint index = 0;

static gint advance (void)
{
    index = index + 1;
    return 7;
}

int main (int argc, char **argv)
{
    gint *p;
    p = g_new0 (gint, 2);
    p[index] = advance ();
    g_print ("%d %d %d\n", p[0], p[1], index);
    g_free (p);
    return 0;
}

// out: 7 0 1
// real: C says nothing of the order
