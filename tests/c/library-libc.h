/* What the libraries call of the C library, as tests/c/library-libc.c has it: a program that is linked with it decides what these
 * calls find, which of them fail, and sees what is held. */
#ifndef LIBRARY_LIBC_H
#define LIBRARY_LIBC_H

/* Stands in front of the paths below /etc and /usr that are opened or looked at. */
extern const char *libc_root;

/* Is called before a path is opened, before one is looked at (lstat), and before a file is read. */
extern void (*libc_before_open)(void);
extern void (*libc_before_lstat)(void);
extern void (*libc_before_read)(void);

/* So many reads are interrupted; then this error comes, unless it is 0. */
extern int libc_interrupts;
extern int libc_read_error;

/* The request for memory that is refused, counted down to 0; and whether it was. 0: none is. */
extern long libc_refuse;
extern int libc_was_refused;

/* How many blocks of memory and bytes of mappings there are, and how many files are open. */
extern long libc_held;
extern long libc_open;

/* The flags of the last open. */
extern int libc_flags;

#endif
