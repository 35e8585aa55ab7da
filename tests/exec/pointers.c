// Pointers to variables, elements and fields.
#include <glib.h>

typedef struct _Node Node;
struct _Node {
    gint value;
    Node *next;
};

int main (int argc, char **argv)
{
    gint a;
    gint *p;
    gint **q;
    Node n;
    a = 1;
    p = &a;
    q = &p;
    **q = 2;
    g_print ("%d\n", a);
    n.value = 3;
    p = &n.value;
    *p = *p + 1;
    g_print ("%d %d\n", n.value, *q == &n.value);
    p = g_new0 (gint, 3);
    *(p + 1) = 7;
    p[2] = 8;
    g_print ("%d %d %d\n", p[0], p[1], (p + 2)[0]);
    q = &p;
    g_print ("%d\n", (*q)[1]);
    g_free (p);
    return 0;
}

// out: 2
// out: 4 1
// out: 0 7 8
// out: 7
