/* Faults of memory, one for each number, which the sanitizer must report, and 0: none. It is compiled without the sanitizer. */
#include <stdlib.h>
#include <string.h>
#include <unistd.h>

int main(int count, char **words) {
    int fault = count > 1 ? atoi(words[1]) : 0;
    size_t size = count > 2 ? (size_t)atoi(words[2]) : 0; /* what no compiler sees */
    char *volatile small = malloc(16);
    char *volatile large = malloc(64);
    memset(large, 1, 64);
    switch (fault) {
    case 1: free(small); break;                      /* freed twice, below */
    case 2: memcpy(small, large, size); break;       /* written past the end */
    case 3: memcpy(large, small, size); break;       /* read past the end */
    case 4: memcpy(large, large + 4, size); break;   /* a copy onto itself */
    case 5: free(large); memcpy(small, large, 8); _exit(0); /* read after it was freed */
    case 6: free(large + 8); _exit(0);               /* freed, and never given out */
    case 7: large = NULL; break;                     /* lost */
    case 8: if (write(STDOUT_FILENO, small, size) < 0) return 1; break; /* a system call that reads past the end */
    }
    free(small);
    free(large);
    _exit(0);
}
