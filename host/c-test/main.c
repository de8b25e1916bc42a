/*
 * Tests of include/radar_archive.h from C, over the engine's static library.
 *
 * The last line is 'N passed, M failed'; the status is 0 only if nothing failed.
 */
#include "harness.h"
#include "tests.h"

int main(void)
{
    version_macros();
    numbers_by_their_words();
    words_of_numbers();
    places_of_info();
    longest_file();
    sample_files();
    sample_empty_cells();
    sample_full();
    sample_bounds();
    refusals_of_make();
    refusals_of_write_and_change();
    refusals_of_files();
    nothing_lent();
    destinations();
    coordinates();
    boxes_and_ranks();
    two_files();
    writes_and_changes();
    pointers_of_steps();
    false_pointers();
    other_counts_of_pointers();
    pointers_in_a_list();
    damaged_files();
    return report();
}
