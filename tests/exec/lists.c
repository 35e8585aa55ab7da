// A list of structs in blocks.
#include <glib.h>

typedef struct _Node Node;
struct _Node {
    gint value;
    Node *next;
};

int main (int argc, char **argv)
{
    Node *head;
    Node *n;
    gint i;
    head = NULL;
    i = 0;
    again: ;
    if (i < 4) {
        n = g_slice_new0 (Node);
        n->value = i * i;
        n->next = head;
        head = n;
        i = i + 1;
        goto again;
    }
    next: ;
    if (head != NULL) {
        g_print ("%d\n", head->value);
        n = head->next;
        g_slice_free (Node, head);
        head = n;
        goto next;
    }
    return 0;
}

// out: 9
// out: 4
// out: 1
// out: 0
