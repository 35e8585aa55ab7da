// Include lines have no effect.
#include <glib.h>
#include <glib-object.h>
#include <gio/gio.h>
#include <stdlib.h>
#include "other.h"

int main (int argc, char **argv)
{
    g_print ("%d\n", (gint) sizeof (GError));
    return 0;
}

// out: 3
// real: there is no such file, and cells are counted
