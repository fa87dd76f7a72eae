#!/usr/bin/env python3
"""Compares mbj.h and mbj_codes.h, the help of mbjobs, its manual page, FORMAT.md and C_REFERENCE.md with the codes, words, lengths and numbers of the proved
code, which the program of crates/mbj_tables prints (its file stdout, with which the gate compares it).

    tests/docs/facts.py

Prints each name of C, word or phrase that isn't there, and ends with status 1 if one isn't."""
import re
import sys
from pathlib import Path

TOP = Path(__file__).resolve().parents[2]

# C's names if they aren't the words of job files in capitals.
NAMES = {
    "cipher": {"ctr": "CNTR"},
    "direction": {"enc": "ENCRYPT", "dec": "DECRYPT"},
    "order": {"ch": "CIPHER_HASH", "hc": "HASH_CIPHER"},
    "authentication": {"cmac128": "AES_CMAC", "cmac256": "AES_CMAC_256", "gmac": "AES_GMAC", "ccm": "AES_CCM"},
}
PREFIXES = {"cipher": "MBJ_CIPHER_", "direction": "MBJ_DIR_", "order": "MBJ_ORDER_", "authentication": "MBJ_AUTH_"}
ENUMS = {"cipher": "mbj_cipher", "direction": "mbj_dir", "order": "mbj_order", "authentication": "mbj_auth"}
CONSTANTS = {
    "MBJ_MAX_JOBS": "jobs of a manager",
    "MBJ_MAX_PACKET_BYTES": "packet",
    "MBJ_MAX_IV_BYTES": "IV of GCM",
    "MBJ_MAX_GCM_AAD_BYTES": "data of GCM",
    "MBJ_MAX_CCM_AAD_BYTES": "data of CCM",
    "MBJ_MAX_HMAC_KEY_BYTES": "key of HMAC",
    "MBJ_MAX_TAG_BYTES": "tag",
    "MBJ_MAX_SESSIONS": "sessions",
}
HASHES = ["SHA-1", "SHA-224", "SHA-256", "SHA-384", "SHA-512"]


def read_table():
    """The lists of words by their names, in the order of their codes, and the other lines by theirs."""
    words, facts = {}, {}
    for line in (TOP / "crates/mbj_tables/stdout").read_text().splitlines():
        name, value = line.split(": ", 1)
        listed = re.fullmatch(r"(cipher|direction|order|authentication) (\d+)", name)
        if listed:
            row = words.setdefault(listed[1], [])
            assert len(row) == int(listed[2]), line
            row.append(value)
        else:
            facts[name] = value
    return words, facts


WORDS, FACTS = read_table()


def most(name):
    return FACTS[name].split(" to ")[-1]


def either(name):
    """`16, 24, 32` as a sentence has it."""
    *before, last = FACTS[name].split(", ")
    return f"{', '.join(before)} or {last}" if before else last


def with_commas(text):
    return re.sub(r"\d{4,}", lambda number: f"{int(number[0]):,}", text)


def plain(path):
    """A text on one line, without the marks of its form."""
    text = (TOP / path).read_text()
    if path.endswith(".1"):
        text = re.sub(r'(?m)^\.(BR?|BI|I|TP|PP|nf|fi|RS|RE)\b ?', "", text).replace('"', " ").replace("\\-", "-")
    return re.sub(r"\s+([,;.])", r"\1", re.sub(r"[\s*]+", " ", text.replace("`", "")))


def fields(commas):
    """What a text on the fields of a job says, whichever text it is."""
    said = [
        f"{either('IV of CTR')} for ctr",
        f"{FACTS['IV of GCM']} for gcm and gmac",
        FACTS["nonce of CCM"],
    ]
    return [with_commas(text) for text in said] if commas else said


states = [FACTS[f"{name} states"] for name in HASHES]
distinct = list(dict.fromkeys(states))
digests = [FACTS[f"digest of {name}"] for name in HASHES]
PHRASES = {
    "crates/mbj_command/src/help.rt": fields(False) + [f"IV: {FACTS['IV of CBC']} bytes for cbc"],
    "man/mbjobs.1": fields(False) + [
        f"Bytes: {FACTS['IV of CBC']} for cbc",
        f"the cipher's key of {either('key of AES')} bytes",
        f"of an HMAC at most {most('key of HMAC')}",
        f"of gmac {either('key of AES')}",
        f"{distinct[0]} bytes in all for SHA-1, {distinct[1]} for SHA-224 and SHA-256, {distinct[2]} for SHA-384 and SHA-512",
        f"of gcm at most {most('data of GCM')}, of ccm at most {most('data of CCM')}",
        f"gcm {FACTS['tag of GCM']}; ccm {either('tag of CCM')}",
        f"The packet is longer than {FACTS['packet']} bytes",
    ],
    "docs/FORMAT.md": [
        f"{FACTS['IV of CBC']} for CBC",
        with_commas(f"{FACTS['IV of GCM']} for GCM and GMAC; for CCM the nonce, {FACTS['nonce of CCM']}"),
        f"the cipher's key: {either('key of AES')} bytes",
        with_commas(f"the key of an HMAC, at most {most('key of HMAC')} bytes"),
        f"of a CMAC, {either('key of CMAC')}, or of GMAC, {either('key of AES')}",
        f"({', '.join(distinct[:-1])} or {distinct[-1]} bytes in all)",
        with_commas(f"of GCM at most {most('data of GCM')} bytes, of CCM at most {most('data of CCM')}"),
        f"CMAC, GMAC and GCM {FACTS['tag of GCM']}, CCM {either('tag of CCM')}",
        with_commas(f"at most {FACTS['bytes of a file']} bytes and {FACTS['jobs of a file']} jobs"),
        f"a file has at most {FACTS['sessions']}",
        with_commas(f"the packet is longer than {FACTS['packet']} bytes"),
    ],
    "docs/C_REFERENCE.md": [
        f"key of {either('key of AES')}; iv of {FACTS['IV of CBC']};",
        f"iv of {either('IV of CTR')};",
        with_commas(f"iv of {FACTS['IV of GCM']}; aad of at most {most('data of GCM')}; any cipher range | the range, and a tag of {FACTS['tag of GCM']}"),
        with_commas(f"the nonce, of {FACTS['nonce of CCM']}; aad of at most {most('data of CCM')}; any cipher range | the range, and a tag of {either('tag of CCM')}"),
        with_commas(f"auth_key of at most {most('key of HMAC')}; the hash range | a tag of 1 to {', '.join(digests[:-1])} or {digests[-1]}"),
        f"auth_key of exactly {', '.join(states[:-1])} or {states[-1]};",
        with_commas(f"A packet has at most {FACTS['packet']}."),
    ],
    "include/mbj.h": [
        f"cipher CBC key {FACTS['key of AES']} iv {FACTS['IV of CBC']} ",
        f"cipher CNTR key {FACTS['key of AES']} iv {FACTS['IV of CTR']} ",
        f"cipher CCM key {FACTS['key of AES']} iv {FACTS['nonce of CCM']} ",
        with_commas(f"HMAC auth_key up to {most('key of HMAC')} "),
    ],
    "include/mbj_codes.h": [
        with_commas(f"longer than {FACTS['packet']} bytes"),
        with_commas(f"longer than {most('data of GCM')} bytes for GCM, or {most('data of CCM')} for CCM"),
    ],
}


def name_in_c(kind, word):
    """MBJ_AUTH_HMAC_SHA_1 for hmac-sha1."""
    name = NAMES[kind].get(word) or re.sub(r"sha(?=\d)", "sha_", word).upper().replace("-", "_")
    return PREFIXES[kind] + name


def header_faults():
    header = (TOP / "include/mbj_codes.h").read_text()
    for kind, words in WORDS.items():
        body = re.search(rf"enum {ENUMS[kind]} \{{(.*?)\}}", header, re.S)[1]
        have = [name.strip() for name in body.split(",") if name.strip() and "=" not in name]
        want = [name_in_c(kind, word) for word in words]
        if have != want:
            yield f"include/mbj_codes.h: {ENUMS[kind]} isn't {', '.join(want)}"
    for constant, name in CONSTANTS.items():
        if not re.search(rf"(?m)^#define {constant} {most(name)}\b", header):
            yield f"include/mbj_codes.h: {constant} isn't {most(name)}"


def word_faults():
    """Each word stands in each text on job files."""
    for path in ["crates/mbj_command/src/help.rt", "man/mbjobs.1", "docs/FORMAT.md"]:
        have = set(re.findall(r"[a-z0-9]+(?:-[a-z0-9]+)*", plain(path)))
        for kind, words in WORDS.items():
            for word in words:
                if word not in have:
                    yield f"{path}: no {kind} {word}"


def phrase_faults():
    for path, phrases in PHRASES.items():
        text = plain(path)
        for phrase in phrases:
            if phrase not in text:
                yield f"{path} doesn't say: {phrase}"


faults = [*header_faults(), *word_faults(), *phrase_faults()]
print("\n".join(faults), end="\n" if faults else "")
sys.exit(bool(faults))
