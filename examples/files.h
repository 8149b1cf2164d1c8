/* The two files of a folder, whole. */
#ifndef FILES_H
#define FILES_H

#include <stdint.h>
#include <stdio.h>
#include <stdlib.h>
#include <string.h>

struct file {
    uint8_t *bytes;
    size_t length;
};

static void *grown(void *bytes, size_t length)
{
    void *more = realloc(bytes, length);
    if (more == NULL) {
        fprintf(stderr, "there is not enough memory\n");
        exit(2);
    }
    return more;
}

/* A file that cannot be opened or read counts as empty. */
static struct file read_file(const char *folder, const char *name)
{
    struct file file = { NULL, 0 };
    size_t room = 0, got;
    char *path = (char *)grown(NULL, strlen(folder) + strlen(name) + 2);
    sprintf(path, "%s/%s", folder, name);
    FILE *stream = fopen(path, "rb");
    free(path);
    if (stream == NULL)
        return file;
    do {
        if (file.length == room) {
            room = 2 * room + 65536;
            file.bytes = (uint8_t *)grown(file.bytes, room);
        }
        got = fread(file.bytes + file.length, 1, room - file.length, stream);
        file.length += got;
    } while (got > 0);
    fclose(stream);
    return file;
}

/* One LF at the end of the formula is dropped. */
static struct file read_formula_file(const char *folder)
{
    struct file file = read_file(folder, "formula.txt");
    if (file.length > 0 && file.bytes[file.length - 1] == '\n')
        file.length--;
    return file;
}

#endif
