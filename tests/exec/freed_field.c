// The address of a field of a freed struct is asked for.
#include <glib.h>

typedef struct _Node Node;
struct _Node {
    gint value;
    Node *next;
};

int main (int argc, char **argv)
{
    Node *p;
    gint *v;
    p = g_slice_new0 (Node);
    g_slice_free (Node, p);
    v = &p->value;
    return 0;
}

// err: vala2c: undefined freed
// status: 24
