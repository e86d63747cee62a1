// Runs the program PROGRAM with the same words, and ends with another status than it did.
#include <sys/wait.h>
#include <unistd.h>

int main(int count, char **words) {
    int status;
    pid_t child = fork();
    if (child == 0) {
        execv(PROGRAM, words);
        _exit(127);
    }
    if (child < 0 || waitpid(child, &status, 0) != child || !WIFEXITED(status)) _exit(126);
    // No destructor of a preloaded library runs here: it has reported in the child.
    _exit(WEXITSTATUS(status) ^ 1);
}
