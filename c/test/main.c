/*
 * Every entry against its model, and facts worked out by hand.
 *
 *     test                  thousands of calls of each entry, and all that is worked out by hand
 *     test HOSTILE [SEED]   calls until so many were refused: of rounds, saves, stocks and windows above all, and of everything else
 */
#include "harness.h"

#include <stdio.h>
#include <stdlib.h>

enum { SEED = 20261117 };

/* One of everything; those that vet are rare, since they take a hundred times as long. */
static void try_all(void) {
    for (size_t i = 0; i < 6; i++) try_relay();
    for (size_t i = 0; i < 3; i++) try_server();
    try_window();
    try_user();
    try_stream();
    try_stock();
    try_save();
    try_save();
    if (once_in(4)) try_relay_day();
    if (once_in(4)) try_network();
    if (once_in(8)) try_paper();
    if (once_in(8)) try_record();
    if (once_in(16)) try_planner();
    if (once_in(16)) try_keys();
    if (once_in(800)) try_large_plan();
}

static void try_thousands(void) {
    worked_by_hand();
    count_tiny_plans();
    for (size_t i = 0; i < 3000; i++) {
        try_all();
        try_planner();
        try_record();
        try_keys();
        try_network();
        try_paper();
    }
}

int main(int argc, char **argv) {
    uint64_t hostile = argc > 1 ? strtoull(argv[1], NULL, 10) : 0;
    seed_numbers(argc > 2 ? strtoull(argv[2], NULL, 10) : SEED);
    if (hostile == 0) try_thousands();
    while (calls_refused() < hostile) try_all();
    return report() ? EXIT_SUCCESS : EXIT_FAILURE;
}
