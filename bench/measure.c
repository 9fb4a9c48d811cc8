// measure INPUT OUTPUT COMMAND..: runs a command with these files as its standard input and output (- for none), and
// prints the elapsed seconds, its processor seconds, its peak memory in bytes, and its status. bench/tables.py and
// tools/lib.sh compile and use it. It is small because the system counts as a command's peak what the process that
// started it had in memory.
#include <errno.h>
#include <fcntl.h>
#include <spawn.h>
#include <stdio.h>
#include <string.h>
#include <sys/resource.h>
#include <sys/wait.h>
#include <time.h>

extern char **environ;

static const char *file(const char *word) { return strcmp(word, "-") ? word : "/dev/null"; }

static double seconds(struct timeval time) { return time.tv_sec + time.tv_usec / 1e6; }

int main(int count, char **words) {
  if (count < 4) {
    fputs("measure: it takes INPUT, OUTPUT and COMMAND\n", stderr);
    return 2;
  }
  posix_spawn_file_actions_t streams;
  posix_spawn_file_actions_init(&streams);
  posix_spawn_file_actions_addopen(&streams, 0, file(words[1]), O_RDONLY, 0);
  posix_spawn_file_actions_addopen(&streams, 1, file(words[2]), O_WRONLY | O_CREAT | O_TRUNC, 0600);
  struct timespec began, ended;
  clock_gettime(CLOCK_MONOTONIC, &began);
  pid_t child;
  int failed = posix_spawnp(&child, words[3], &streams, NULL, words + 3, environ);
  if (failed) {
    fprintf(stderr, "measure: cannot start %s: %s\n", words[3], strerror(failed));
    return 2;
  }
  int status;
  struct rusage used;
  while (wait4(child, &status, 0, &used) < 0) {
    if (errno != EINTR) return 2;
  }
  clock_gettime(CLOCK_MONOTONIC, &ended);
  printf("%.6f %.6f %ld %d\n", ended.tv_sec - began.tv_sec + (ended.tv_nsec - began.tv_nsec) / 1e9,
         seconds(used.ru_utime) + seconds(used.ru_stime), used.ru_maxrss * 1024,
         WIFEXITED(status) ? WEXITSTATUS(status) : 128 + WTERMSIG(status));
  return 0;
}
