// Static variables have constant values, and stay.
#include <glib.h>

static gint total = 2 + 3;
static const gchar *word = "abc";
static gint negative = -3;
static guint large = 4294967295U;

static void add (gint n)
{
    total = total + n;
}

int main (int argc, char **argv)
{
    g_print ("%d %s %d %u\n", total, word, negative, large);
    add (2);
    add (3);
    g_print ("%d\n", total);
    word = "other";
    g_print ("%s\n", word);
    return 0;
}

// out: 5 abc -3 4294967295
// out: 10
// out: other
