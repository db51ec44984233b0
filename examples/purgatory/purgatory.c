/* A purgatory: it runs between the old kernel and the new one, computes SHA-256 of the new kernel's memory again, and
 * goes on only where it is the digest that the load wrote here. 64-bit mode, no library, no stack but its own.
 *
 * The load sets the first three symbols and starts at purgatory_start (start.S).
 */
typedef unsigned char u8;
typedef unsigned int u32;
typedef unsigned long u64;

/* rax, rcx, rdx, rbx, rsp, rbp, rsi, rdi, r8 to r15, rip: what the new kernel is entered with */
u64 entry64_regs[17] = {1};

/* where the segments of the load lie; unused rows are 0 and 0 */
struct region {
    u64 start;
    u64 length;
} purgatory_sha_regions[16] = {{1, 0}};

u8 purgatory_sha256_digest[32] = {1};

/* FIPS 180-4, section 4.2.2 */
static const u32 K[64] = {
    0x428a2f98, 0x71374491, 0xb5c0fbcf, 0xe9b5dba5, 0x3956c25b, 0x59f111f1, 0x923f82a4, 0xab1c5ed5,
    0xd807aa98, 0x12835b01, 0x243185be, 0x550c7dc3, 0x72be5d74, 0x80deb1fe, 0x9bdc06a7, 0xc19bf174,
    0xe49b69c1, 0xefbe4786, 0x0fc19dc6, 0x240ca1cc, 0x2de92c6f, 0x4a7484aa, 0x5cb0a9dc, 0x76f988da,
    0x983e5152, 0xa831c66d, 0xb00327c8, 0xbf597fc7, 0xc6e00bf3, 0xd5a79147, 0x06ca6351, 0x14292967,
    0x27b70a85, 0x2e1b2138, 0x4d2c6dfc, 0x53380d13, 0x650a7354, 0x766a0abb, 0x81c2c92e, 0x92722c85,
    0xa2bfe8a1, 0xa81a664b, 0xc24b8b70, 0xc76c51a3, 0xd192e819, 0xd6990624, 0xf40e3585, 0x106aa070,
    0x19a4c116, 0x1e376c08, 0x2748774c, 0x34b0bcb5, 0x391c0cb3, 0x4ed8aa4a, 0x5b9cca4f, 0x682e6ff3,
    0x748f82ee, 0x78a5636f, 0x84c87814, 0x8cc70208, 0x90befffa, 0xa4506ceb, 0xbef9a3f7, 0xc67178f2};

static u32 turned(u32 x, int n)
{
    return x >> n | x << (32 - n);
}

static void take_block(u32 h[8], const u8 *bytes)
{
    u32 w[64], s[8];
    for (int i = 0; i < 16; i++)
        w[i] = (u32)bytes[4 * i] << 24 | bytes[4 * i + 1] << 16 | bytes[4 * i + 2] << 8 | bytes[4 * i + 3];
    for (int i = 16; i < 64; i++) {
        u32 a = turned(w[i - 15], 7) ^ turned(w[i - 15], 18) ^ w[i - 15] >> 3;
        u32 b = turned(w[i - 2], 17) ^ turned(w[i - 2], 19) ^ w[i - 2] >> 10;
        w[i] = w[i - 16] + a + w[i - 7] + b;
    }
    for (int i = 0; i < 8; i++)
        s[i] = h[i];
    for (int i = 0; i < 64; i++) {
        u32 e = turned(s[4], 6) ^ turned(s[4], 11) ^ turned(s[4], 25);
        u32 one = s[7] + e + ((s[4] & s[5]) ^ (~s[4] & s[6])) + K[i] + w[i];
        u32 a = turned(s[0], 2) ^ turned(s[0], 13) ^ turned(s[0], 22);
        u32 two = a + ((s[0] & s[1]) ^ (s[0] & s[2]) ^ (s[1] & s[2]));
        for (int j = 7; j > 0; j--)
            s[j] = s[j - 1];
        s[4] += one;
        s[0] = one + two;
    }
    for (int i = 0; i < 8; i++)
        h[i] += s[i];
}

/* Whether the memory that the regions name has the digest. Segments are whole pages, so each region is a multiple of 64
 * bytes, and only the last block is filled up. */
int purgatory_same(void)
{
    u32 h[8] = {0x6a09e667, 0xbb67ae85, 0x3c6ef372, 0xa54ff53a, 0x510e527f, 0x9b05688c, 0x1f83d9ab, 0x5be0cd19};
    u8 last[64] = {0x80};
    u64 length = 0;
    for (int i = 0; i < 16; i++) {
        const u8 *bytes = (const u8 *)purgatory_sha_regions[i].start;
        for (u64 at = 0; at < purgatory_sha_regions[i].length; at += 64)
            take_block(h, bytes + at);
        length += purgatory_sha_regions[i].length;
    }
    for (int i = 0; i < 8; i++)
        last[56 + i] = (u8)(8 * length >> (56 - 8 * i));
    take_block(h, last);
    for (int i = 0; i < 32; i++)
        if (purgatory_sha256_digest[i] != (u8)(h[i / 4] >> (24 - 8 * (i % 4))))
            return 0;
    return 1;
}
