// Arrays of structs and of pointers.
#include <glib.h>

typedef struct _Node Node;
struct _Node {
    gint value;
    Node *next;
};

int main (int argc, char **argv)
{
    Node *p;
    gchar **q;
    p = g_new0 (Node, 3);
    p[1].value = 4;
    p[2] = p[1];
    g_print ("%d %d %d\n", p[0].value, p[2].value, (&p[1])->next == NULL);
    q = g_new0 (gchar *, 2);
    q[0] = "a";
    g_print ("%s %s\n", q[0], q[1] == NULL ? "null" : q[1]);
    g_free (p);
    g_free (q);
    return 0;
}

// out: 0 4 1
// out: a null
