/* The one function that the C calls and GLib has not: gcc -include vala_rt.h NAME.c */
#include <stdio.h>
#include <stdlib.h>
#include <string.h>
#include <glib.h>

static inline gchar *vala_rt_read_line (void)
{
    char *line = NULL;
    size_t room = 0;
    ssize_t length = getline (&line, &room, stdin);
    gchar *copy = NULL;

    if (length >= 0) {
        if (length > 0 && line[length - 1] == '\n') {
            line[length - 1] = 0;
        }
        copy = g_strdup (line);
    }
    free (line);
    return copy;
}
