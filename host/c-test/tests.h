/* The tests, in the order in which main runs them. */
#ifndef TESTS_H
#define TESTS_H

/* macros.c */
void version_macros(void);
void numbers_by_their_words(void);
void words_of_numbers(void);
void places_of_info(void);
void longest_file(void);

/* sample.c */
void sample_files(void);
void sample_empty_cells(void);
void sample_full(void);
void sample_bounds(void);

/* refusals.c */
void refusals_of_make(void);
void refusals_of_write_and_change(void);
void refusals_of_files(void);
void nothing_lent(void);

/* destinations.c */
void destinations(void);

/* parts.c */
void coordinates(void);
void boxes_and_ranks(void);
void two_files(void);

/* list.c */
void writes_and_changes(void);

/* pointed.c */
void pointers_of_steps(void);
void false_pointers(void);
void other_counts_of_pointers(void);
void pointers_in_a_list(void);

/* damage.c */
void damaged_files(void);

#endif
