/* Runs the program on a list. Standard input and standard output are files in memory. Assumes a Linux that has them. */
#define _GNU_SOURCE
#include "printed.h"
#include <spawn.h>
#include <stdint.h>
#include <sys/mman.h>
#include <sys/wait.h>
#include <unistd.h>

extern char **environ;

/* A file in memory with these bytes, at its start; -1 where there is none. */
static int memory_file(const uint8_t *bytes, size_t length) {
    int file = memfd_create("downcrook", MFD_CLOEXEC);
    if (file < 0) return -1;
    if (write(file, bytes, length) == (ssize_t)length && lseek(file, 0, SEEK_SET) == 0) return file;
    close(file);
    return -1;
}

/* Whether the command ran with this input and this output and ended by itself. */
static int ran(char **command, int input, int output) {
    posix_spawn_file_actions_t actions;
    pid_t child;
    int status;
    if (posix_spawn_file_actions_init(&actions)) return 0;
    int spawned = !posix_spawn_file_actions_adddup2(&actions, input, 0) && !posix_spawn_file_actions_adddup2(&actions, output, 1) &&
        !posix_spawn(&child, command[0], &actions, NULL, command, environ);
    posix_spawn_file_actions_destroy(&actions);
    return spawned && waitpid(child, &status, 0) == child && WIFEXITED(status);
}

size_t printed(char **command, const uint8_t *list, size_t length, char *text, size_t room) {
    int input = memory_file(list, length), output = memory_file(list, 0);
    size_t characters = SIZE_MAX;
    if (input >= 0 && output >= 0 && ran(command, input, output)) {
        off_t end = lseek(output, 0, SEEK_END);
        ssize_t taken = pread(output, text, room, 0);
        if (end >= 0 && taken >= 0 && ((size_t)end <= room ? taken == end : (size_t)taken == room)) characters = (size_t)end;
    }
    if (input >= 0) close(input);
    if (output >= 0) close(output);
    return characters;
}
