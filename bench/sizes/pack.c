/* Packs what it reads and unpacks it again, and says how long both are. */
#include "zlib.h"

int write_bytes(int stream, const void *bytes, unsigned length);
int read_bytes(int stream, void *bytes, unsigned length);
void put_number(unsigned value);
void put(const char *text);
void *memcpy(void *to, const void *from, unsigned long length);

static unsigned char room[400000], given[20000], packed[24000], back[20000];
static unsigned used;

static void *take(void *opaque, unsigned count, unsigned size)
{
    (void)opaque;
    void *at = room + used;
    used += (count * size + 7) & ~7u;
    return used <= sizeof room ? at : 0;
}

static void give(void *opaque, void *at) { (void)opaque; (void)at; }

int main(void)
{
    unsigned length = 0;
    int more;
    while (length < sizeof given && (more = read_bytes(0, given + length, sizeof given - length)) > 0)
        length += more;
    z_stream out = {.zalloc = take, .zfree = give, .next_in = given, .avail_in = length, .next_out = packed,
                    .avail_out = sizeof packed};
    if (deflateInit(&out, 6) != Z_OK || deflate(&out, Z_FINISH) != Z_STREAM_END)
        return 1;
    z_stream in = {.zalloc = take, .zfree = give, .next_in = packed, .avail_in = out.total_out, .next_out = back,
                   .avail_out = sizeof back};
    if (inflateInit(&in) != Z_OK || inflate(&in, Z_FINISH) != Z_STREAM_END || in.total_out != length)
        return 2;
    for (unsigned k = 0; k < length; k++)
        if (back[k] != given[k])
            return 3;
    put_number(length);
    put(" bytes, packed in ");
    put_number(out.total_out);
    put("\n");
    return 0;
}
