// What the programs share: the environment's calls, and a few functions of a C library.
typedef unsigned char u8;
typedef unsigned short u16;
typedef unsigned int u32;
typedef unsigned long long u64;

#define COUNT(array) (sizeof(array) / sizeof(array)[0])

int write_bytes(int stream, const void *bytes, u32 length);
int read_bytes(int stream, void *bytes, u32 length);

void *memcpy(void *to, const void *from, u32 length);
void *memset(void *to, int value, u32 length);
u32 strlen(const char *text);
int strcmp(const char *first, const char *second);

void put(const char *text);
void put_hex(u32 value, int digits);
void put_number(u32 value);
