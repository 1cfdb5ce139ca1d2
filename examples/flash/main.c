int write_bytes(int stream, const void *bytes, unsigned length);
int main(void) { write_bytes(1, "hello\n", 6); return 3; }
