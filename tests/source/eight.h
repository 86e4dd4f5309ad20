#define DEPTH 8
