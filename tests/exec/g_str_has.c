// Fronts and ends of texts.
#include <glib.h>

int main (int argc, char **argv)
{
    gboolean b;
    b = g_str_has_prefix ("abc", "ab");
    g_print ("%d", b);
    b = g_str_has_prefix ("abc", "bc");
    g_print ("%d", b);
    b = g_str_has_prefix ("abc", "");
    g_print ("%d", b);
    b = g_str_has_prefix ("abc", "abcd");
    g_print ("%d ", b);
    b = g_str_has_suffix ("abc", "bc");
    g_print ("%d", b);
    b = g_str_has_suffix ("abc", "ab");
    g_print ("%d", b);
    b = g_str_has_suffix ("abc", "");
    g_print ("%d", b);
    b = g_str_has_suffix ("bc", "abc");
    g_print ("%d\n", b);
    return 0;
}

// out: 1010 1010
