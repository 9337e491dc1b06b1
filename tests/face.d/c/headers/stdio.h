/* Of <stdio.h> what is used here; README.md says why. */
#ifndef STDIO_H
#define STDIO_H

typedef struct FILE FILE;
extern FILE *stdin;
char *fgets(char *line, int size, FILE *from);
int printf(const char *format, ...);
int puts(const char *line);

#endif
