// Runs a program and writes its processor seconds and its greatest memory in KiB to a file: measure FILE PROGRAM WORD...
// A process that is begun by a large one counts that one's memory as its own for a moment; this one is small.
#include <stdio.h>
#include <sys/resource.h>
#include <sys/wait.h>
#include <unistd.h>

int main(int count, char **words) {
  struct rusage used;
  int status;
  pid_t child;
  FILE *file;
  if (count < 3) return 125;
  child = fork();
  if (child == 0) {
    execvp(words[2], words + 2);
    _exit(127);
  }
  if (child < 0 || wait4(child, &status, 0, &used) != child) return 126;
  file = fopen(words[1], "w");
  if (!file) return 126;
  fprintf(file, "%ld.%06ld %ld.%06ld %ld\n", (long)used.ru_utime.tv_sec, (long)used.ru_utime.tv_usec, (long)used.ru_stime.tv_sec,
          (long)used.ru_stime.tv_usec, used.ru_maxrss);
  fclose(file);
  return WIFEXITED(status) ? WEXITSTATUS(status) : 128;
}
