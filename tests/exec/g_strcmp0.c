// Texts are compared by their bytes; null is the least.
#include <glib.h>

int main (int argc, char **argv)
{
    gint n;
    n = g_strcmp0 ("a", "a");
    g_print ("%d", n);
    n = g_strcmp0 ("a", "b");
    g_print (" %d", n < 0);
    n = g_strcmp0 ("b", "a");
    g_print (" %d", n > 0);
    n = g_strcmp0 ("a", "ab");
    g_print (" %d", n < 0);
    n = g_strcmp0 (NULL, "");
    g_print (" %d", n < 0);
    n = g_strcmp0 ("", NULL);
    g_print (" %d", n > 0);
    n = g_strcmp0 (NULL, NULL);
    g_print (" %d", n);
    n = g_strcmp0 ("\377", "a");
    g_print (" %d\n", n > 0);
    return 0;
}

// out: 0 1 1 1 1 1 0 1
