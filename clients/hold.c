// hold THREAD SECONDS: stops this one thread of a process for so many seconds, while the process' other threads go on. It takes root's rights,
// or those of the process' parent.
#include <errno.h>
#include <sys/ptrace.h>
#include <sys/wait.h>
#include <unistd.h>

#include "common.h"

int main(int count, char **words)
{
    pid_t thread = (pid_t)number_of(count, words, 1, 1, 4194304);
    unsigned seconds = (unsigned)number_of(count, words, 2, 1, 60);
    if (ptrace(PTRACE_SEIZE, thread, NULL, NULL) != 0 || ptrace(PTRACE_INTERRUPT, thread, NULL, NULL) != 0)
        give_up("hold: the thread can't be stopped: %s", strerror(errno));
    waitpid(thread, NULL, __WALL);
    sleep(seconds);
    ptrace(PTRACE_DETACH, thread, NULL, NULL);
    return 0;
}
