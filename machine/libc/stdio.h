/* See stddef.h. A FILE is only ever handled by its pointer. */
#ifndef HOST_STDIO_H
#define HOST_STDIO_H
#include <stddef.h>
typedef struct _IO_FILE FILE;
extern FILE *stderr, *stdout;
FILE *fopen(const char *, const char *);
int fclose(FILE *);
int ferror(FILE *);
int fflush(FILE *);
int rename(const char *, const char *);
size_t fread(void *, size_t, size_t, FILE *);
size_t fwrite(const void *, size_t, size_t, FILE *);
void perror(const char *);
int printf(const char *, ...);
int fprintf(FILE *, const char *, ...);
int snprintf(char *, size_t, const char *, ...);
#endif
