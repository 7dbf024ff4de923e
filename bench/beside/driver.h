/* What a program has of the driver, and the driver of it. */

/* Reads the words: FILE HELD TIMED. */
void driver_begin(int count, char **words);

/* Ends the library's loop. */
void driver_end(void);
