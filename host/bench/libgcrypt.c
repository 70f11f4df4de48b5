/*
 * libgcrypt's GMAC with every hardware feature off: its GHASH is then the one with tables, in C.
 */
#include <gcrypt.h>
#include <stdio.h>
#include <stdlib.h>
#include <string.h>

#include "peers.h"

static gcry_mac_hd_t mac;
static gcry_cipher_hd_t ecb;

/* Whether libgcrypt itself lists no feature. A colon stands after the list's name and after each feature. */
static int features_are_off(void)
{
    char *list = gcry_get_config(0, "hwflist");
    int off = list && strchr(list, ':') == strrchr(list, ':');
    gcry_free(list);
    return off;
}

const char *libgcrypt_start(void)
{
    gcry_control(GCRYCTL_DISABLE_HWF, "all", NULL); /* counts only before the first other call */
    if (!gcry_check_version(NULL))
        return "libgcrypt did not start";
    gcry_control(GCRYCTL_DISABLE_SECMEM, 0);
    gcry_control(GCRYCTL_INITIALIZATION_FINISHED, 0);
    if (!features_are_off())
        return "libgcrypt kept hardware features on";
    if (gcry_mac_open(&mac, GCRY_MAC_GMAC_AES, 0, NULL))
        return "libgcrypt has no GMAC";
    if (gcry_cipher_open(&ecb, GCRY_CIPHER_AES128, GCRY_CIPHER_MODE_ECB, 0))
        return "libgcrypt has no AES";
    return NULL;
}

const char *libgcrypt_version(void) { return gcry_check_version(NULL); }

static void demand(gcry_error_t error)
{
    if (!error)
        return;
    fprintf(stderr, "bench: libgcrypt: %s\n", gcry_strerror(error));
    exit(1);
}

void libgcrypt_hash(const struct key *key, const struct message *m, uint8_t out[16])
{
    static const uint8_t iv[12];
    size_t length = 16;
    demand(gcry_mac_setkey(mac, key->aes, 16));
    demand(gcry_mac_setiv(mac, iv, sizeof iv));
    demand(gcry_mac_write(mac, m->bytes, m->length));
    demand(gcry_mac_read(mac, out, &length));
}

void libgcrypt_aes(const struct key *key, uint8_t out[32])
{
    memset(out, 0, 32);
    out[31] = 1;
    demand(gcry_cipher_setkey(ecb, key->aes, 16));
    demand(gcry_cipher_encrypt(ecb, out, 32, NULL, 0));
}
