// g_slice_free takes no null.
#include <glib.h>

typedef struct _Node Node;
struct _Node {
    gint value;
    Node *next;
};

int main (int argc, char **argv)
{
    Node *p;
    p = NULL;
    g_slice_free (Node, p);
    return 0;
}

// err: vala2c: undefined null
// status: 24
