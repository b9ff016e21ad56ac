/* Runs a program with a standard input that doesn't wait for bytes: nonblocking PROGRAM ARGUMENT ... */
#define _POSIX_C_SOURCE 200809L
#include <fcntl.h>
#include <stdio.h>
#include <unistd.h>

int main(int count, char **argument) {
    if (count < 2 || fcntl(STDIN_FILENO, F_SETFL, O_NONBLOCK) != 0) return 64;
    execvp(argument[1], argument + 1);
    perror(argument[1]);
    return 127;
}
