// Arguments and results are converted to their types.
#include <glib.h>

static gchar byte (guchar c)
{
    g_print ("%d\n", c);
    return c;
}

int main (int argc, char **argv)
{
    gint r;
    r = byte (511);
    g_print ("%d\n", r);
    return 0;
}

// out: 255
// out: -1
