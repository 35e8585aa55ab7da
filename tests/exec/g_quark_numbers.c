// Quarks are counted from 1 in the order of their first use.
#include <glib.h>

int main (int argc, char **argv)
{
    GQuark a;
    a = g_quark_from_static_string ("one");
    g_print ("%u", a);
    a = g_quark_from_static_string ("two");
    g_print (" %u", a);
    a = g_quark_from_static_string ("one");
    g_print (" %u\n", a);
    return 0;
}

// out: 1 2 1
// real: GLib has quarks of its own before
