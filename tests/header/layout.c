/* Prints where the header puts each field of the six structs; layout/src/main.rs prints the same from Rust declarations. */
#include <finuraho.h>
#include <stddef.h>
#include <stdio.h>

int main(void)
{
    printf("wrote %zu\n", sizeof(finuraho_wrote));
    printf("number %zu\n", offsetof(finuraho_wrote, number));
    printf("length %zu\n", offsetof(finuraho_wrote, length));
    printf("found %zu\n", sizeof(finuraho_found));
    printf("number %zu\n", offsetof(finuraho_found, number));
    printf("row %zu\n", offsetof(finuraho_found, row));
    printf("measured %zu\n", sizeof(finuraho_measured));
    printf("number %zu\n", offsetof(finuraho_measured, number));
    printf("regions %zu\n", offsetof(finuraho_measured, regions));
    printf("lines %zu\n", offsetof(finuraho_measured, lines));
    printf("value %zu\n", offsetof(finuraho_measured, value));
    printf("ran %zu\n", sizeof(finuraho_ran));
    printf("number %zu\n", offsetof(finuraho_ran, number));
    printf("outcome %zu\n", offsetof(finuraho_ran, outcome));
    printf("steps %zu\n", offsetof(finuraho_ran, steps));
    printf("traced %zu\n", offsetof(finuraho_ran, traced));
    printf("variables %zu\n", offsetof(finuraho_ran, variables));
    printf("swept %zu\n", sizeof(finuraho_swept));
    printf("number %zu\n", offsetof(finuraho_swept, number));
    printf("alarms %zu\n", offsetof(finuraho_swept, alarms));
    printf("same %zu\n", offsetof(finuraho_swept, same));
    printf("other %zu\n", offsetof(finuraho_swept, other));
    printf("unfinished %zu\n", offsetof(finuraho_swept, unfinished));
    printf("any_other %zu\n", sizeof(finuraho_any_other));
    printf("number %zu\n", offsetof(finuraho_any_other, number));
    printf("other %zu\n", offsetof(finuraho_any_other, other));
    return 0;
}
