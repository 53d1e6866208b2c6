/* Two pattern files made into one pattern. */
#ifndef MERGE_H
#define MERGE_H

/* Reads both files, of which one may be "-" for standard input, and prints the words of the merged pattern on standard
 * output, as a pattern file has them. What is refused is said on standard error, with the file that it is about, or
 * with the numbers of both. The status. A file that cannot be read is trouble. */
int merge_files(const char *first, const char *second);

#endif
