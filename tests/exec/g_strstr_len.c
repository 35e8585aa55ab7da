// The least place of a text in another.
#include <glib.h>

int main (int argc, char **argv)
{
    const gchar *s;
    gchar *t;
    s = "hello hello";
    t = g_strstr_len (s, -1, "lo");
    g_print ("%ld %s\n", t - s, t);
    t = g_strstr_len (s, -1, "");
    g_print ("%d\n", t == s);
    t = g_strstr_len (s, -1, "x");
    g_print ("%d\n", t == NULL);
    t = g_strstr_len ("aab", -1, "ab");
    g_print ("%s\n", t);
    t = g_strstr_len ("", -1, "");
    g_print ("[%s]\n", t);
    return 0;
}

// out: 3 lo hello
// out: 1
// out: 1
// out: ab
// out: []
