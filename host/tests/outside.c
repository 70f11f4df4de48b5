/*
 * The hash against AES-GCM of OpenSSL: Tag = GHASH_H(A, C) xor AES_K(J0) with H = AES_K(0), on random messages.
 *
 *     outside [SEED]
 */
#include <openssl/evp.h>
#include <stdio.h>
#include <stdlib.h>
#include <string.h>
#include <time.h>

#include "rvghash.h"

#define MESSAGES 2000
#define LONGEST 2048

static uint64_t state;

/* splitmix64 */
static uint64_t next(void)
{
    uint64_t z = state += 0x9E3779B97F4A7C15u;
    z = (z ^ (z >> 30)) * 0xBF58476D1CE4E5B9u;
    z = (z ^ (z >> 27)) * 0x94D049BB133111EBu;
    return z ^ (z >> 31);
}

static void fill(uint8_t *s, size_t n)
{
    for (size_t i = 0; i < n; i++)
        s[i] = (uint8_t)next();
}

static void die(const char *what)
{
    fprintf(stderr, "outside: OpenSSL failed: %s\n", what);
    exit(2);
}

static void aes_block(const uint8_t *key, const uint8_t *in, uint8_t *out)
{
    int n = 0;
    EVP_CIPHER_CTX *x = EVP_CIPHER_CTX_new();
    if (x == NULL || !EVP_EncryptInit_ex(x, EVP_aes_128_ecb(), NULL, key, NULL) || !EVP_CIPHER_CTX_set_padding(x, 0) ||
        !EVP_EncryptUpdate(x, out, &n, in, 16) || n != 16)
        die("AES");
    EVP_CIPHER_CTX_free(x);
}

static void seal(const uint8_t *key, const uint8_t *iv, const uint8_t *a, size_t a_len, const uint8_t *p, size_t p_len,
                 uint8_t *c, uint8_t *tag)
{
    int n = 0;
    EVP_CIPHER_CTX *x = EVP_CIPHER_CTX_new();
    if (x == NULL || !EVP_EncryptInit_ex(x, EVP_aes_128_gcm(), NULL, key, iv) ||
        (a_len > 0 && !EVP_EncryptUpdate(x, NULL, &n, a, (int)a_len)) ||
        (p_len > 0 && !EVP_EncryptUpdate(x, c, &n, p, (int)p_len)) || !EVP_EncryptFinal_ex(x, c + p_len, &n) ||
        !EVP_CIPHER_CTX_ctrl(x, EVP_CTRL_GCM_GET_TAG, 16, tag))
        die("AES-GCM");
    EVP_CIPHER_CTX_free(x);
}

int main(int argc, char **argv)
{
    static uint8_t a[LONGEST], p[LONGEST], c[LONGEST + 16];
    state = argc > 1 ? strtoull(argv[1], NULL, 0) : (uint64_t)time(NULL);
    printf("outside: seed %llu\n", (unsigned long long)state);
    for (int i = 0; i < MESSAGES; i++) {
        uint8_t key[16], j0[16] = {0}, zero[16] = {0}, h[16], mask[16], tag[16], plain[16], fast[16];
        size_t a_len = next() % (LONGEST + 1), p_len = next() % (LONGEST + 1);
        if (i % 4 == 1)
            a_len %= 33;
        if (i % 4 == 2)
            p_len %= 33;
        if (i % 4 == 3)
            p_len = 0; /* GMAC */
        fill(key, 16);
        fill(j0, 12);
        j0[15] = 1;
        fill(a, a_len);
        fill(p, p_len);
        seal(key, j0, a, a_len, p, p_len, c, tag);
        aes_block(key, zero, h);
        aes_block(key, j0, mask);
        if (rvghash_ghash_plain(h, 16, a, a_len, c, p_len, plain, 16) != 0 ||
            rvghash_ghash_fast(h, 16, a, a_len, c, p_len, fast, 16) != 0) {
            printf("outside: refused at message %d\n", i);
            return 1;
        }
        for (int k = 0; k < 16; k++)
            if ((plain[k] ^ mask[k]) != tag[k] || fast[k] != plain[k]) {
                printf("outside: message %d differs from OpenSSL (%zu bytes of A, %zu of C)\n", i, a_len, p_len);
                return 1;
            }
    }
    printf("outside: %d messages agree with OpenSSL's AES-GCM, on both paths\n", MESSAGES);
    return 0;
}
