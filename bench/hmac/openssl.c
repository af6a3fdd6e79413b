/* Times the same texts by OpenSSL's HMAC: with the key for each text, and with a key that is kept. */
#include <openssl/evp.h>
#include <openssl/hmac.h>
#include <stdio.h>
#include <string.h>
#include <time.h>

enum { ROUNDS = 25, COUNT = 20000 };

static unsigned char key[32], text[41], tag[EVP_MAX_MD_SIZE];

static double now(void)
{
    struct timespec t;
    clock_gettime(CLOCK_MONOTONIC, &t);
    return t.tv_sec * 1e9 + t.tv_nsec;
}

static void whole(void)
{
    unsigned int length;
    HMAC(EVP_sha256(), key, sizeof key, text, sizeof text, tag, &length);
    text[0] = tag[0];
}

static HMAC_CTX *kept;

static void under_kept_key(void)
{
    unsigned int length;
    HMAC_Init_ex(kept, NULL, 0, NULL, NULL);
    HMAC_Update(kept, text, sizeof text);
    HMAC_Final(kept, tag, &length);
    text[0] = tag[0];
}

static double least(void (*one)(void))
{
    double best = 1e18;
    for (int round = 0; round < ROUNDS; round++) {
        double start = now();
        for (int i = 0; i < COUNT; i++)
            one();
        double time = (now() - start) / COUNT;
        if (time < best)
            best = time;
    }
    return best;
}

int main(void)
{
    memset(key, 0x6b, sizeof key);
    memset(text, 0x74, sizeof text);
    kept = HMAC_CTX_new();
    HMAC_Init_ex(kept, key, sizeof key, EVP_sha256(), NULL);
    printf("%.1f %.1f\n", least(whole), least(under_kept_key));
    return 0;
}
