/* full_pipe ROOM COMMAND..: runs a command whose standard output is a pipe that does not block and has room for ROOM bytes
   more (a count of whole pages). What arrived goes to standard output when the command has ended, whose status is taken over. */
#define _GNU_SOURCE
#include <fcntl.h>
#include <stdio.h>
#include <stdlib.h>
#include <string.h>
#include <sys/wait.h>
#include <unistd.h>

static char page[4096];

static void fail(const char *what) {
  perror(what);
  exit(99);
}

int main(int argc, char **argv) {
  int ends[2], status;
  size_t filled = 0, room;
  ssize_t n;
  pid_t child;

  if (argc < 3) return 99;
  room = strtoul(argv[1], NULL, 10);
  if (pipe2(ends, O_NONBLOCK) < 0) fail("pipe2");
  memset(page, '.', sizeof page);
  while ((n = write(ends[1], page, sizeof page)) > 0) filled += (size_t)n;
  for (size_t left = room; left > 0; left -= (size_t)n, filled -= (size_t)n)
    if ((n = read(ends[0], page, left < sizeof page ? left : sizeof page)) <= 0) fail("read");

  child = fork();
  if (child < 0) fail("fork");
  if (child == 0) {
    if (dup2(ends[1], STDOUT_FILENO) < 0) fail("dup2");
    close(ends[0]);
    close(ends[1]);
    execvp(argv[2], argv + 2);
    fail(argv[2]);
  }
  close(ends[1]);
  if (waitpid(child, &status, 0) < 0) fail("waitpid");
  while ((n = read(ends[0], page, sizeof page)) > 0) {
    size_t own = (size_t)n < filled ? (size_t)n : filled;
    filled -= own;
    if (fwrite(page + own, 1, (size_t)n - own, stdout) < (size_t)n - own) fail("standard output");
  }
  if (fflush(stdout) != 0) fail("standard output");
  return WIFEXITED(status) ? WEXITSTATUS(status) : 98;
}
