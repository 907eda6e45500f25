/* Starts the proved program, and hands its status on. A pipe that nobody reads any more is to be told by `write`, so that the program can say
 * so, and not by the signal that ends a process in silence. */
#include <signal.h>
#include <stdint.h>

/* reads frames from standard input and prints their lines; crate `dustmap_run` */
int32_t dustmap_run(void);

int main(void)
{
    signal(SIGPIPE, SIG_IGN);
    return (int)dustmap_run();
}
