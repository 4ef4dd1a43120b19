/* Runs the program verdict, which reads a table file on standard input: lends the proved function a
   buffer for the longest text that is read and one byte more, by which a longer text is noticed.
   Its exit status is that of the console's check: 0 where the plan passes, 1 where a cheaper one
   exists, 2 for a refusal, 3 where the text could not be read, 5 where the line could not be
   written. A pipe that nobody reads is such an error, not a signal, and so is an error of writing
   that the system tells late. */
#define _POSIX_C_SOURCE 200809L
#include <signal.h>
#include <stddef.h>
#include <stdint.h>
#include <stdio.h>
#include <unistd.h>

uint32_t star_run_verdict(uint8_t *buffer, size_t size);

static uint8_t buffer[16777217];

int main(void) {
    signal(SIGPIPE, SIG_IGN);
    uint32_t status = star_run_verdict(buffer, sizeof buffer);
    if (status < 3 && close(STDOUT_FILENO) != 0) {
        perror("verdict: the line is not printed whole");
        return 5;
    }
    return (int)status;
}
