// A pointer goes more than one past the end.
#include <glib.h>

int main (int argc, char **argv)
{
    gint *p;
    p = g_new0 (gint, 3);
    p = p + 3;
    g_print ("at the end\n");
    p = p + 1;
    return 0;
}

// out: at the end
// err: vala2c: undefined outside
// status: 24
