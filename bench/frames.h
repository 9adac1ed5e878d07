// Files of frames, for serve_load.c and gateway_load.c: two bytes of length, then as many bytes.
#pragma once
#include <stdio.h>
#include <stdlib.h>

enum { MOST = 4096, ROOM = 1 << 20 };

typedef struct {
    int count;
    const unsigned char *at[MOST];
    int size[MOST];
} Frames;

// Reads the frames of a file, at most MOST in ROOM bytes. Gives whether there is one, and each is whole.
static int read_frames(const char *name, Frames *frames)
{
    unsigned char *bytes = malloc(ROOM);
    FILE *file = fopen(name, "rb");
    const long size = file && bytes ? (long)fread(bytes, 1, ROOM, file) : 0;
    for (long at = 0; at + 2 <= size && frames->count < MOST;) {
        const int length = 2 + (bytes[at] << 8 | bytes[at + 1]);
        if (at + length > size)
            return 0;
        frames->at[frames->count] = bytes + at;
        frames->size[frames->count++] = length;
        at += length;
    }
    if (file)
        fclose(file);
    return frames->count > 0;
}
