"""Published values of AES-128 and GCM, to which the model's own are held.

AES: FIPS 197, appendices B and C.1. GCM: test cases 1 to 4 of "The Galois/Counter Mode of Operation" (McGrew and Viega), those of
a 128-bit key and a 96-bit vector.
"""
import aes
import gcm

AES = [  # key, block, its encryption
    ("2b7e151628aed2a6abf7158809cf4f3c", "3243f6a8885a308d313198a2e0370734", "3925841d02dc09fbdc118597196a0b32"),
    ("000102030405060708090a0b0c0d0e0f", "00112233445566778899aabbccddeeff", "69c4e0d86a7b0430d8cdb78070b4c55a"),
]

KEY, VECTOR = "feffe9928665731c6d6a8f9467308308", "cafebabefacedbaddecaf888"
TEXT = ("d9313225f88406e5a55909c5aff5269a86a7a9531534f7da2e4c303d8a318a72"
        "1c3c0c95956809532fcf0e2449a6b525b16aedf5aa0de657ba637b391aafd255")
SEALED = ("42831ec2217774244b7221b784d0d49ce3aa212f2c02a4e035c17e2329aca12e"
          "21d514b25466931c7d8f6a5aac84aa051ba30b396a0aac973d58e091473f5985")

GCM = [  # key, vector, additional data, text, sealed text, tag
    ("00" * 16, "00" * 12, "", "", "", "58e2fccefa7e3061367f1d57a4e7455a"),
    ("00" * 16, "00" * 12, "", "00" * 16, "0388dace60b6a392f328c2b971b2fe78", "ab6e47d42cec13bdf53a67b21257bddf"),
    (KEY, VECTOR, "", TEXT, SEALED, "4d5c2af327cd64a62cf35abd2ba6fab4"),
    (KEY, VECTOR, "feedfacedeadbeeffeedfacedeadbeefabaddad2", TEXT[:120], SEALED[:120], "5bc94fbc3221a5db94fae95ae7121a47"),
]


def wrong():
    """What doesn't agree."""
    found = ["AES, key %s" % key for key, block, out in AES if aes.encrypt(bytes.fromhex(key), bytes.fromhex(block)).hex() != out]
    for key, vector, additional, text, sealed, tag in GCM:
        under, vector, additional, text = (bytes.fromhex(field) for field in (key, vector, additional, text))

        def cipher(block, under=under):
            return aes.encrypt(under, block)
        given, given_tag = gcm.seal(cipher, vector, additional, text)
        if (given.hex(), given_tag.hex()) != (sealed, tag) or gcm.opened(cipher, vector, additional, given, given_tag) != text:
            found.append("GCM, tag %s" % tag)
    return found
