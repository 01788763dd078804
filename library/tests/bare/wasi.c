/* What a program of the tests for WASI needs of its host, in C, for the way through wasm2c: its words, files, and its end. All
 * that is not needed answers that it is not there. program.h is what wasm2c writes. */
#define _POSIX_C_SOURCE 200809L
#include "program.h"
#include <fcntl.h>
#include <stdio.h>
#include <stdlib.h>
#include <string.h>
#include <unistd.h>

enum { DONE = 0, BADF = 8, NOENT = 44, FOLDER = 3 };
typedef struct Z_wasi_snapshot_preview1_instance_t host;
static Z_program_instance_t program;
static int count;
static char **words;

static uint8_t *at(u32 place) { return program.w2c_memory.data + place; }
static void put32(u32 place, u32 number) { memcpy(at(place), &number, 4); }
static void put64(u32 place, u64 number) { memcpy(at(place), &number, 8); }
static u32 get32(u32 place) {
    u32 number;
    memcpy(&number, at(place), 4);
    return number;
}

u32 Z_wasi_snapshot_preview1Z_args_sizes_get(host *h, u32 many, u32 bytes) {
    u32 all = 0;
    (void)h;
    for (int n = 0; n < count; n++)
        all += (u32)strlen(words[n]) + 1;
    put32(many, (u32)count);
    put32(bytes, all);
    return DONE;
}

u32 Z_wasi_snapshot_preview1Z_args_get(host *h, u32 pointers, u32 bytes) {
    (void)h;
    for (int n = 0; n < count; n++) {
        put32(pointers + 4 * (u32)n, bytes);
        strcpy((char *)at(bytes), words[n]);
        bytes += (u32)strlen(words[n]) + 1;
    }
    return DONE;
}

u32 Z_wasi_snapshot_preview1Z_fd_close(host *h, u32 fd) {
    (void)h;
    return close((int)fd) ? BADF : DONE;
}

/* A file, or with 3 a folder, which may do all. */
u32 Z_wasi_snapshot_preview1Z_fd_fdstat_get(host *h, u32 fd, u32 place) {
    (void)h;
    memset(at(place), 0, 24);
    *at(place) = fd == FOLDER ? 3 : 4;
    put64(place + 8, ~UINT64_C(0));
    put64(place + 16, ~UINT64_C(0));
    return DONE;
}

u32 Z_wasi_snapshot_preview1Z_fd_fdstat_set_flags(host *h, u32 fd, u32 flags) {
    (void)h;
    (void)fd;
    (void)flags;
    return DONE;
}

/* The folder of all, by the name /. */
u32 Z_wasi_snapshot_preview1Z_fd_prestat_get(host *h, u32 fd, u32 place) {
    (void)h;
    if (fd != FOLDER)
        return BADF;
    put32(place, 0);
    put32(place + 4, 1);
    return DONE;
}

u32 Z_wasi_snapshot_preview1Z_fd_prestat_dir_name(host *h, u32 fd, u32 place, u32 len) {
    (void)h;
    (void)len;
    if (fd != FOLDER)
        return BADF;
    *at(place) = '/';
    return DONE;
}

u32 Z_wasi_snapshot_preview1Z_path_open(host *h, u32 folder, u32 look, u32 path, u32 len, u32 how, u64 rights, u64 inherited, u32 flags, u32 fd) {
    char name[4096];
    int file;
    (void)h, (void)folder, (void)look, (void)inherited, (void)flags;
    if (len + 2 > sizeof name)
        return NOENT;
    name[0] = '/';
    memcpy(name + 1, at(path), len);
    name[len + 1] = 0;
    /* (the right to write is bit 6) */
    file = open(name, (rights & 64 ? O_RDWR : O_RDONLY) | (how & 1 ? O_CREAT : 0) | (how & 8 ? O_TRUNC : 0), 0644);
    if (file < 0)
        return NOENT;
    put32(fd, (u32)file);
    return DONE;
}

/* Reads or writes each of the rooms that are listed. */
static u32 moved(u32 fd, u32 rooms, u32 many, u32 told, int is_read) {
    u32 all = 0;
    for (u32 n = 0; n < many; n++) {
        const u32 place = get32(rooms + 8 * n), len = get32(rooms + 8 * n + 4);
        const ssize_t got = is_read ? read((int)fd, at(place), len) : write((int)fd, at(place), len);
        if (got < 0)
            return BADF;
        all += (u32)got;
        if ((u32)got < len)
            break;
    }
    put32(told, all);
    return DONE;
}

u32 Z_wasi_snapshot_preview1Z_fd_read(host *h, u32 fd, u32 rooms, u32 many, u32 told) { return (void)h, moved(fd, rooms, many, told, 1); }
u32 Z_wasi_snapshot_preview1Z_fd_write(host *h, u32 fd, u32 rooms, u32 many, u32 told) { return (void)h, moved(fd, rooms, many, told, 0); }

u32 Z_wasi_snapshot_preview1Z_fd_seek(host *h, u32 fd, u64 by, u32 from, u32 told) {
    const off_t place = lseek((int)fd, (off_t)by, from == 0 ? SEEK_SET : from == 1 ? SEEK_CUR : SEEK_END);
    (void)h;
    if (place < 0)
        return BADF;
    put64(told, (u64)place);
    return DONE;
}

void Z_wasi_snapshot_preview1Z_proc_exit(host *h, u32 status) {
    (void)h;
    exit((int)status);
}

int main(int many, char **given) {
    count = many;
    words = given;
    /* Files are numbered from 4 on: 3 is the folder. */
    if (dup2(0, FOLDER) < 0)
        return 3;
    wasm_rt_init();
    Z_program_init_module();
    Z_program_instantiate(&program, NULL);
    Z_programZ__start(&program);
    return 0;
}
