/* Runs one of the programs that read an STP text on standard input: the proved function that
   PROGRAM names. Its exit status is 0 for a list or a table, 1 for a refusal, 2 where the text
   could not be read or the answer not be written. A pipe that nobody reads is such an error, not a
   signal, and so is an error of writing that the system tells late, of which UNPRINTED tells. */
#define _POSIX_C_SOURCE 200809L
#include <signal.h>
#include <stdint.h>
#include <stdio.h>
#include <unistd.h>

uint32_t PROGRAM(void);

int main(void) {
    signal(SIGPIPE, SIG_IGN);
    uint32_t status = PROGRAM();
    if (status < 2 && close(STDOUT_FILENO) != 0) {
        perror(UNPRINTED);
        return 2;
    }
    return (int)status;
}
