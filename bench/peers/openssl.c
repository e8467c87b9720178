/* openssl ROOT.pem CA.pem LEAF.pem MOMENT COUNT [LIST.pem..]: times X509_verify_cert on a chain of three, and the checks of its signatures alone.
   With lists of revoked certificates each certificate is looked up in them. Certificates and lists are read once. Prints the microseconds of processor
   time of a verdict, and of the signatures under it: two of certificates, and one of each list. */
#include <openssl/pem.h>
#include <openssl/x509_vfy.h>
#include <stdio.h>
#include <stdlib.h>
#include <time.h>

static X509 *load(const char *path) {
    FILE *file = fopen(path, "r");
    X509 *cert = file ? PEM_read_X509(file, NULL, NULL, NULL) : NULL;
    if (!cert) {
        fprintf(stderr, "%s: no certificate\n", path);
        exit(1);
    }
    fclose(file);
    return cert;
}

static X509_CRL *load_list(const char *path) {
    FILE *file = fopen(path, "r");
    X509_CRL *list = file ? PEM_read_X509_CRL(file, NULL, NULL, NULL) : NULL;
    if (!list) {
        fprintf(stderr, "%s: no list\n", path);
        exit(1);
    }
    fclose(file);
    return list;
}

/* Whether the root or the CA signed a list. */
static int is_signed(X509_CRL *list, X509 *root, X509 *ca) {
    X509 *issuer = X509_NAME_cmp(X509_CRL_get_issuer(list), X509_get_subject_name(ca)) == 0 ? ca : root;
    return X509_CRL_verify(list, X509_get0_pubkey(issuer)) == 1;
}

static double now(void) { return clock() * 1e6 / CLOCKS_PER_SEC; }

int main(int count, char **words) {
    if (count < 6)
        return 2;
    X509 *root = load(words[1]), *ca = load(words[2]), *leaf = load(words[3]);
    time_t moment = atol(words[4]);
    long rounds = atol(words[5]);
    X509_STORE *store = X509_STORE_new();
    X509_STORE_add_cert(store, root);
    int lists = count - 6;
    X509_CRL **list = malloc((lists + 1) * sizeof *list);
    for (int at = 0; at < lists; at++) {
        list[at] = load_list(words[6 + at]);
        X509_STORE_add_crl(store, list[at]);
    }
    if (lists)
        X509_STORE_set_flags(store, X509_V_FLAG_CRL_CHECK | X509_V_FLAG_CRL_CHECK_ALL);
    STACK_OF(X509) *untrusted = sk_X509_new_null();
    sk_X509_push(untrusted, ca);
    double begun = now();
    for (long round = 0; round < rounds; round++) {
        X509_STORE_CTX *context = X509_STORE_CTX_new();
        X509_STORE_CTX_init(context, store, leaf, untrusted);
        X509_VERIFY_PARAM_set_time(X509_STORE_CTX_get0_param(context), moment);
        if (X509_verify_cert(context) != 1) {
            fprintf(stderr, "%s\n", X509_verify_cert_error_string(X509_STORE_CTX_get_error(context)));
            return 1;
        }
        X509_STORE_CTX_free(context);
    }
    double verdicts = now() - begun;
    begun = now();
    for (long round = 0; round < rounds; round++) {
        if (X509_verify(ca, X509_get0_pubkey(root)) != 1 || X509_verify(leaf, X509_get0_pubkey(ca)) != 1)
            return 1;
        for (int at = 0; at < lists; at++)
            if (!is_signed(list[at], root, ca))
                return 1;
    }
    double signatures = now() - begun;
    printf("openssl: a verdict %.1f us, of these the %d signatures %.1f\n", verdicts / rounds, 2 + lists, signatures / rounds);
    return 0;
}
