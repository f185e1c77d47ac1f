#define GREETING "Hello"

const char *name(void);
