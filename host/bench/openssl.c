/*
 * OpenSSL's GMAC: AES-128-GCM with associated data only. Which GHASH it takes is settled when the library is loaded,
 * from the processor's features and the environment variable OPENSSL_ia32cap.
 */
#include <openssl/crypto.h>
#include <openssl/evp.h>
#include <stdio.h>
#include <stdlib.h>
#include <string.h>

#include "peers.h"

static EVP_CIPHER_CTX *gcm, *ecb;

const char *openssl_start(void)
{
    gcm = EVP_CIPHER_CTX_new();
    ecb = EVP_CIPHER_CTX_new();
    if (!gcm || !ecb || EVP_EncryptInit_ex(gcm, EVP_aes_128_gcm(), NULL, NULL, NULL) != 1 ||
        EVP_EncryptInit_ex(ecb, EVP_aes_128_ecb(), NULL, NULL, NULL) != 1)
        return "OpenSSL did not start";
    EVP_CIPHER_CTX_set_padding(ecb, 0);
    return NULL;
}

const char *openssl_version(void) { return OpenSSL_version(OPENSSL_VERSION); }

int openssl_pclmulqdq(void)
{
    static const char head[] = "OPENSSL_ia32cap=";
    const char *settings = OPENSSL_info(OPENSSL_INFO_CPU_SETTINGS);
    if (!settings || strncmp(settings, head, sizeof head - 1) != 0)
        return -1;
    return (int)(strtoull(settings + sizeof head - 1, NULL, 16) >> 33 & 1);
}

static void demand(int done)
{
    if (done)
        return;
    fprintf(stderr, "bench: OpenSSL refused a call\n");
    exit(1);
}

/* Where aes is NULL the key stays. */
static void tag(const uint8_t *aes, const uint8_t *a, size_t length, uint8_t out[16])
{
    static const uint8_t iv[12];
    int n;
    demand(EVP_EncryptInit_ex(gcm, NULL, NULL, aes, iv) == 1);
    demand(EVP_EncryptUpdate(gcm, NULL, &n, a, (int)length) == 1);
    demand(EVP_EncryptFinal_ex(gcm, out, &n) == 1);
    demand(EVP_CIPHER_CTX_ctrl(gcm, EVP_CTRL_GCM_GET_TAG, 16, out) == 1);
}

void openssl_hash(const struct key *key, const struct message *m, uint8_t out[16])
{
    tag(key->aes, m->bytes, m->length, out);
}

void openssl_aes(const struct key *key, uint8_t out[32])
{
    static const uint8_t blocks[32] = {[31] = 1};
    int n;
    demand(EVP_EncryptInit_ex(ecb, NULL, NULL, key->aes, NULL) == 1);
    demand(EVP_EncryptUpdate(ecb, out, &n, blocks, 32) == 1);
}

/* The tag under the key that is set, without its mask. */
static void claim_hash(const struct key *key, const uint8_t claim[16], uint8_t out[16])
{
    tag(NULL, claim, 16, out);
    for (int i = 0; i < 16; i++)
        out[i] ^= key->mask[i];
}

void openssl_links(const struct links *l, uint8_t results[LINKS])
{
    demand(EVP_EncryptInit_ex(gcm, NULL, NULL, l->key.aes, NULL) == 1);
    check_each(claim_hash, l, results);
}

void openssl_links_aes(const struct links *l, uint8_t results[LINKS])
{
    static const uint8_t counter[16] = {[15] = 1};
    uint8_t out[16];
    int n;
    (void)results;
    demand(EVP_EncryptInit_ex(ecb, NULL, NULL, l->key.aes, NULL) == 1);
    for (size_t i = 0; i < LINKS; i++)
        demand(EVP_EncryptUpdate(ecb, out, &n, counter, 16) == 1);
}
