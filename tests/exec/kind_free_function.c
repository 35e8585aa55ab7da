// g_free takes no function.
#include <glib.h>

static void f (void)
{
}

int main (int argc, char **argv)
{
    g_free ((gpointer) f);
    return 0;
}

// err: vala2c: undefined kind
// status: 24
