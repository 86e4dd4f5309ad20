/* What functions of the library do, as far as an analysis of values can tell.

`source` puts such a function in the place of each call, so an alarm in it is one of the call. A
model does at least what the function may do: it writes each value that may be written, and gives
each that may be given. What stands behind an @ has the place of the call.

- ANY, ANY_INT, ANY_LONG and ANY_SIZE are any number of char, int, long and size_t.
- Pointers are given as `const void *`, so that each call fits.
- SIZE(p) is the size of what the parameter points to in the function's own declaration.
- TARGET is the type of what the result points to.
- `...` are the arguments that the call has there. SCANNED(f) writes through them what a format
  like that of scanf asks for. COUNT is the number of characters that a format like that of printf
  gives, with the closing 0, behind PRINTED(f), which makes ready for that.
- TOLD(f) writes what `%n` asks for in a format like that of printf. Where ONLY_TOLD(f) has nothing
  to write, the call has no model.
- FIRST(p, q) says that the object to which p points holds q before all else. That is written where
  the call gives its address, and q by its name.
- OWN is a pointer that all calls of the function share. RECORD is an object of the type TARGET that
  all calls of all functions share.
- FIELD(f, a, b) lets the member f of RECORD, if it has one, be from a to b.
- FAILS says that the function may set errno.
- SET(v) lets the variable v hold anything, where the file declares it.
- ELEMENT(p, i, n) points to the element of p of that number, where elements have n bytes.
- COMPARISON is the parameter `compare`, a pointer to a function of two pointers.
*/

/* Input. */
char *fgets(const void *s, int n, const void *file)
{ FAILS @memset((void *)s, ANY, (unsigned long)n); return ANY ? (char *)s : 0; }

char *gets(const void *s)
{ FAILS @memset((void *)s, ANY, 1 + ANY_SIZE / 2); return ANY ? (char *)s : 0; }

unsigned long fread(const void *p, unsigned long size, unsigned long n, const void *file)
{ FAILS unsigned long r; r = ANY_SIZE; if (n < r) r = n; @memset((void *)p, ANY, size * n);
  return r; }

long read(int file, const void *p, unsigned long n)
{ FAILS long r, most; r = ANY_LONG; most = (long)n; @memset((void *)p, ANY, n);
  if (r < -1) r = -1; if (most < r) r = most; return r; }

long pread(int file, const void *p, unsigned long n, long from)
{ FAILS long r, most; r = ANY_LONG; most = (long)n; @memset((void *)p, ANY, n);
  if (r < -1) r = -1; if (most < r) r = most; return r; }

/* With MSG_TRUNC, which is 32, it gives more than it writes. */
long recv(int socket, const void *p, unsigned long n, int flags)
{ FAILS long r, most; r = ANY_LONG; most = (long)n + flags / 32 % 2 * 4611686018427387904;
  @memset((void *)p, ANY, n); if (r < -1) r = -1; if (most < r) r = most; return r; }

long readlink(const void *path, const void *p, unsigned long n)
{ FAILS long r, most; r = ANY_LONG; most = (long)n; @memset((void *)p, ANY, n);
  if (r < -1) r = -1; if (most < r) r = most; return r; }

long getline(const void *line, const void *size, const void *file)
{ FAILS char *text; long r; text = @*(char **)line;
  if (text == 0 || ANY) text = (char *)malloc(1 + ANY_SIZE / 2);
  @memset(text, ANY, 1); @*(char **)line = text; @*(unsigned long *)size = ANY_SIZE;
  r = ANY_LONG; if (r < -1) r = -1; return r; }

char *getcwd(const void *s, unsigned long n)
{ FAILS char *text; text = (char *)s;
  if (text == 0) { text = (char *)malloc(1 + ANY_SIZE / 2); memset(text, ANY, 1); }
  else @memset(text, ANY, n);
  return ANY ? text : 0; }

int getc(const void *file) { FAILS return (unsigned char)ANY - (ANY != 0); }
int fgetc(const void *file) { FAILS return (unsigned char)ANY - (ANY != 0); }
int getchar(void) { FAILS return (unsigned char)ANY - (ANY != 0); }
int getc_unlocked(const void *file) { FAILS return (unsigned char)ANY - (ANY != 0); }
int getchar_unlocked(void) { FAILS return (unsigned char)ANY - (ANY != 0); }
int getopt(int argc, const void *argv, const void *options)
{ SET(optind) SET(optarg) SET(optopt) return (unsigned char)ANY - (ANY != 0); }

int scanf(const void *format, ...) { FAILS SCANNED(format) return ANY_INT; }
int fscanf(const void *file, const void *format, ...) { FAILS SCANNED(format) return ANY_INT; }
int sscanf(const void *s, const void *format, ...)
{ FAILS @strlen(s); SCANNED(format) return ANY_INT; }

/* Output. */
int printf(const void *format, ...) { FAILS ONLY_TOLD(format) return ANY_INT; }
int fprintf(const void *file, const void *format, ...)
{ FAILS ONLY_TOLD(format) return ANY_INT; }

/* Output into memory. */
int sprintf(const void *s, const void *format, ...)
{ FAILS PRINTED(format) @memset((void *)s, ANY, COUNT); TOLD(format) return ANY_INT; }

int snprintf(const void *s, unsigned long n, const void *format, ...)
{ FAILS if (n > 0) @memset((void *)s, ANY, n); TOLD(format) return ANY_INT; }

int vsprintf(const void *s, const void *format, const void *list)
{ FAILS @memset((void *)s, ANY, 1 + ANY_SIZE / 2); return ANY_INT; }

int vsnprintf(const void *s, unsigned long n, const void *format, const void *list)
{ FAILS if (n > 0) @memset((void *)s, ANY, n); return ANY_INT; }

unsigned long strftime(const void *s, unsigned long n, const void *format, const void *time)
{ FAILS unsigned long r; r = ANY_SIZE; if (n < r) r = n; @memset((void *)s, ANY, n); return r; }

unsigned long strxfrm(const void *s, const void *t, unsigned long n)
{ FAILS if (n > 0) @memset((void *)s, ANY, n); return ANY_SIZE; }

char *tmpnam(const void *s)
{ FAILS static char name[20]; char *text; text = (char *)s; if (text == 0) text = name;
  @memset(text, ANY, 20); return ANY ? text : 0; }

void bzero(const void *p, unsigned long n) { @memset((void *)p, 0, n); }
void bcopy(const void *from, const void *to, unsigned long n) { @memmove((void *)to, from, n); }

/* Texts. */
char *strncat(const void *s, const void *t, unsigned long n)
{ char *end; unsigned long k; end = (char *)s + @strlen(s); k = @strlen(t); if (n < k) k = n;
  @memset(end, ANY, k + 1); return (char *)s; }

char *strchr(const void *s, int c)
{ unsigned long k, n; k = ANY_SIZE; n = @strlen(s); if (n < k) k = n;
  return ANY ? (char *)s + k : 0; }

char *strrchr(const void *s, int c)
{ unsigned long k, n; k = ANY_SIZE; n = @strlen(s); if (n < k) k = n;
  return ANY ? (char *)s + k : 0; }

char *index(const void *s, int c)
{ unsigned long k, n; k = ANY_SIZE; n = @strlen(s); if (n < k) k = n;
  return ANY ? (char *)s + k : 0; }

char *rindex(const void *s, int c)
{ unsigned long k, n; k = ANY_SIZE; n = @strlen(s); if (n < k) k = n;
  return ANY ? (char *)s + k : 0; }

char *strstr(const void *s, const void *t)
{ unsigned long k, n; k = ANY_SIZE; n = @strlen(s); if (n < k) k = n;
  return ANY ? (char *)s + k : 0; }

char *strpbrk(const void *s, const void *t)
{ unsigned long k, n; k = ANY_SIZE; n = @strlen(s); if (n < k) k = n;
  return ANY ? (char *)s + k : 0; }

char *strtok(const void *s, const void *t)
{ unsigned long k, n; if (s != 0) OWN = (char *)s; if (OWN == 0) return 0;
  k = ANY_SIZE; n = @strlen(OWN); if (n < k) k = n; @memset(OWN, 0, 1);
  return ANY ? OWN + k : 0; }

void *memchr(const void *s, int c, unsigned long n)
{ unsigned long k; k = ANY_SIZE; if (n == 0) return 0; if (n - 1 < k) k = n - 1;
  return ANY ? (char *)s + k : 0; }

unsigned long strspn(const void *s, const void *t)
{ unsigned long k, n; k = ANY_SIZE; n = @strlen(s); if (n < k) k = n; return k; }

unsigned long strcspn(const void *s, const void *t)
{ unsigned long k, n; k = ANY_SIZE; n = @strlen(s); if (n < k) k = n; return k; }

char *strdup(const void *s)
{ FAILS char *text; text = (char *)malloc(@strlen(s) + 1); memset(text, ANY, 1); return text; }

char *strndup(const void *s, unsigned long n)
{ FAILS char *text; unsigned long k; k = @strlen(s); if (n < k) k = n;
  text = (char *)malloc(k + 1); memset(text, ANY, 1); return text; }

long strtol(const void *s, const void *end, int base)
{ FAILS unsigned long k, n; k = ANY_SIZE; n = @strlen(s); if (n < k) k = n;
  FIRST(end, s) if (end != 0) @*(char **)end = (char *)s + k; return ANY_LONG; }

unsigned long strtoul(const void *s, const void *end, int base)
{ FAILS unsigned long k, n; k = ANY_SIZE; n = @strlen(s); if (n < k) k = n;
  FIRST(end, s) if (end != 0) @*(char **)end = (char *)s + k; return ANY_SIZE; }

char *getenv(const void *name)
{ char *text; text = (char *)malloc(1 + ANY_SIZE / 2); memset(text, ANY, 1);
  return ANY ? text : 0; }

char *strerror(int number)
{ FAILS char *text; text = (char *)malloc(1 + ANY_SIZE / 2); memset(text, ANY, 1); return text; }

char *ctime(const void *time)
{ FAILS char *text; text = (char *)malloc(26); memset(text, ANY, 26); return text; }

char *asctime(const void *time)
{ FAILS char *text; text = (char *)malloc(26); memset(text, ANY, 26); return text; }

/* Numbers. */
int tolower(int c) { return ANY ? c : (unsigned char)ANY; }
int toupper(int c) { return ANY ? c : (unsigned char)ANY; }
int rand(void) { int r; r = ANY_INT; if (r < 0) r = 0; return r; }
long random(void)
{ long r; r = ANY_LONG; if (r < 0) r = 0; if (r > 2147483647) r = 2147483647; return r; }
int abs(int n) { if (n < 0) return -n; return n; }
long labs(long n) { if (n < 0) return -n; return n; }
int isatty(int file) { FAILS return ANY != 0; }

unsigned long fwrite(const void *p, unsigned long size, unsigned long n, const void *file)
{ FAILS unsigned long r; r = ANY_SIZE; if (n < r) r = n; return r; }

long write(int file, const void *p, unsigned long n)
{ FAILS long r, most; r = ANY_LONG; most = (long)n;
  if (r < -1) r = -1; if (most < r) r = most; return r; }

/* Records of the system. */
long time(const void *time) { FAILS if (time != 0) @memset((void *)time, ANY, 8); return ANY_LONG; }
int stat(const void *path, const void *buffer)
{ FAILS @memset((void *)buffer, ANY, SIZE(buffer)); return -(ANY != 0); }
int lstat(const void *path, const void *buffer)
{ FAILS @memset((void *)buffer, ANY, SIZE(buffer)); return -(ANY != 0); }
int fstat(int file, const void *buffer)
{ FAILS @memset((void *)buffer, ANY, SIZE(buffer)); return -(ANY != 0); }
int gettimeofday(const void *time, const void *zone)
{ FAILS if (time != 0) @memset((void *)time, ANY, SIZE(time));
  if (zone != 0) @memset((void *)zone, ANY, SIZE(zone)); return -(ANY != 0); }
long mktime(const void *time) { FAILS @memset((void *)time, ANY, SIZE(time)); return ANY_LONG; }
int pipe(const void *files) { FAILS @memset((void *)files, ANY, 8); return -(ANY != 0); }
int wait(const void *status)
{ FAILS if (status != 0) @memset((void *)status, ANY, 4); return ANY_INT; }
int waitpid(int process, const void *status, int options)
{ FAILS if (status != 0) @memset((void *)status, ANY, 4); return ANY_INT; }
void *localtime(const void *time)
{ FAILS int n; memset(&RECORD, ANY, sizeof(TARGET));
  FIELD(tm_sec, 0, 60) FIELD(tm_min, 0, 59) FIELD(tm_hour, 0, 23) FIELD(tm_mday, 1, 31)
  FIELD(tm_mon, 0, 11) FIELD(tm_wday, 0, 6) FIELD(tm_yday, 0, 365) return &RECORD; }
void *gmtime(const void *time)
{ FAILS int n; memset(&RECORD, ANY, sizeof(TARGET));
  FIELD(tm_sec, 0, 60) FIELD(tm_min, 0, 59) FIELD(tm_hour, 0, 23) FIELD(tm_mday, 1, 31)
  FIELD(tm_mon, 0, 11) FIELD(tm_wday, 0, 6) FIELD(tm_yday, 0, 365) return &RECORD; }

/* What calls. */
void qsort(const void *base, unsigned long n, unsigned long size, COMPARISON)
{ FAILS unsigned long i, j; if (n > 1) @memmove((void *)base, base, n * size);
  while (ANY) { i = ANY_SIZE; j = ANY_SIZE;
    if (i < n && j < n) @compare(ELEMENT(base, i, size), ELEMENT(base, j, size)); } }

void *bsearch(const void *key, const void *base, unsigned long n, unsigned long size, COMPARISON)
{ unsigned long i; i = ANY_SIZE; if (n <= i) return 0;
  while (ANY) { i = ANY_SIZE; if (i < n) @compare(key, ELEMENT(base, i, size)); }
  i = ANY_SIZE; if (n <= i) return 0;
  return ANY ? (void *)ELEMENT(base, i, size) : 0; }
