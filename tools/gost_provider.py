"""OpenSSL's GOST provider through libcrypto's EVP calls, for vectors and for measuring.

A cipher is called as OpenSSL names it, `kuznyechik-ctr` or `magma-cbc`, a MAC by its cipher, `kuznyechik` or `magma`.
OPENSSL_MODULES may name the folder of gostprov.so.
"""

import ctypes
import ctypes.util

POINTER = ctypes.c_void_p
BYTES = ctypes.c_char_p
INT = ctypes.c_int
SIZE = ctypes.c_size_t

# the calls that are used: their result, their arguments
CALLS = {
    "OSSL_PROVIDER_load": (POINTER, [POINTER, BYTES]),
    "EVP_CIPHER_fetch": (POINTER, [POINTER, BYTES, BYTES]),
    "EVP_CIPHER_CTX_new": (POINTER, []),
    "EVP_CIPHER_CTX_free": (None, [POINTER]),
    "EVP_CIPHER_CTX_set_padding": (INT, [POINTER, INT]),
    "EVP_CipherInit_ex2": (INT, [POINTER, POINTER, BYTES, BYTES, INT, POINTER]),
    "EVP_CipherUpdate": (INT, [POINTER, POINTER, POINTER, POINTER, INT]),
    "EVP_CipherFinal_ex": (INT, [POINTER, POINTER, POINTER]),
    "EVP_MAC_fetch": (POINTER, [POINTER, BYTES, BYTES]),
    "EVP_MAC_CTX_new": (POINTER, [POINTER]),
    "EVP_MAC_CTX_free": (None, [POINTER]),
    "EVP_MAC_init": (INT, [POINTER, BYTES, SIZE, POINTER]),
    "EVP_MAC_update": (INT, [POINTER, POINTER, SIZE]),
    "EVP_MAC_final": (INT, [POINTER, POINTER, POINTER, SIZE]),
}


def need(done):
    if not done:
        raise RuntimeError("OpenSSL refused a call")
    return done


class Provider:
    def __init__(self):
        library = ctypes.CDLL(ctypes.util.find_library("crypto") or "libcrypto.so.3")
        for name, (result, arguments) in CALLS.items():
            call = getattr(library, name)
            call.restype, call.argtypes = result, arguments
            setattr(self, name, call)
        for name in (b"default", b"gostprov"):
            need(self.OSSL_PROVIDER_load(None, name))
        self.fetched = {}

    def fetch(self, call, name):
        if name not in self.fetched:
            self.fetched[name] = need(call(None, name.encode(), None))
        return self.fetched[name]

    def begin(self, cipher, key, start, seals):
        """A context that enciphers or deciphers, with no filling."""
        context = need(self.EVP_CIPHER_CTX_new())
        fetched = self.fetch(self.EVP_CIPHER_fetch, cipher)
        need(self.EVP_CipherInit_ex2(context, fetched, key, start, 1 if seals else 0, None))
        need(self.EVP_CIPHER_CTX_set_padding(context, 0))
        return context

    def whole(self, cipher, key, start, text, seals):
        context = self.begin(cipher, key, start, seals)
        out, wrote, rest = ctypes.create_string_buffer(len(text) + 64), INT(0), INT(0)
        need(self.EVP_CipherUpdate(context, out, ctypes.byref(wrote), text, len(text)))
        need(self.EVP_CipherFinal_ex(context, ctypes.byref(out, wrote.value), ctypes.byref(rest)))
        self.EVP_CIPHER_CTX_free(context)
        assert wrote.value + rest.value == len(text)
        return out.raw[:len(text)]

    def seal(self, cipher, key, start, text):
        return self.whole(cipher, key, start, text, True)

    def open(self, cipher, key, start, text):
        return self.whole(cipher, key, start, text, False)

    def begin_mac(self, cipher, key):
        context = need(self.EVP_MAC_CTX_new(self.fetch(self.EVP_MAC_fetch, f"{cipher}-mac")))
        need(self.EVP_MAC_init(context, key, len(key), None))
        return context

    def mac(self, cipher, key, text):
        context = self.begin_mac(cipher, key)
        need(self.EVP_MAC_update(context, text, len(text)))
        out, wrote = ctypes.create_string_buffer(64), SIZE(0)
        need(self.EVP_MAC_final(context, out, ctypes.byref(wrote), 64))
        self.EVP_MAC_CTX_free(context)
        return out.raw[:wrote.value]
