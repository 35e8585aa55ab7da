// Equal texts have one quark, counted from 1.
#include <glib.h>

int main (int argc, char **argv)
{
    GQuark a;
    GQuark b;
    GQuark c;
    a = g_quark_from_static_string ("one");
    b = g_quark_from_static_string ("two");
    c = g_quark_from_static_string ("one");
    g_print ("%d %d %d\n", a == b, a == c, a != 0);
    return 0;
}

// out: 0 1 1
