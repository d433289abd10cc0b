/*
 * Shows that the headers and libhubqr.a agree: calls each function on accepted and refused input and checks every reply, word and
 * byte. Ends at the first check that fails.
 */
#include "check.h"

#include <stdio.h>

int main(void)
{
    test_face();
    test_accepted();
    test_job();
    test_heard();
    test_refused();
    test_covariance();
    test_weights();
    test_limits();
    test_verify();
    test_desk();
    test_hand_in();
    test_desk_refused();
    test_roles();
    test_log();
    test_log_history();
    test_log_refused();
    printf("hubqr C face: %u checks passed\n", checks_passed());
    return 0;
}
