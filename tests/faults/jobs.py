"""Jobs, their results, and the job file of docs/FORMAT.md."""
import hashlib
import hmac

from ciphers import cbc, ccm, cmac, ctr, gcm, schedule
from states import SIZES, hmac_from

DIGESTS = ["sha1", "sha224", "sha256", "sha384", "sha512"]
HMACS = {"hmac-" + digest: digest for digest in DIGESTS}
HMACS_FROM_STATES = {"hmac-" + digest + "-states": digest for digest in DIGESTS}
# The hash of each authentication that is over one.
HASHES = {**HMACS, **HMACS_FROM_STATES, **{digest: digest for digest in DIGESTS}}
CMACS = {"cmac128": 16, "cmac256": 32}
# Ciphers that make the tag too.
AEADS = {"gcm": gcm, "ccm": ccm}
KEY_SIZES = (16, 24, 32)
MAX_SESSIONS = 256
FIELDS = "cipher dir order key iv coff clen auth akey aad hoff hlen taglen packet".split()


def longest_tag(job):
    """The longest tag of the job's authentication."""
    return hashlib.new(HASHES[job["auth"]]).digest_size if job["auth"] in HASHES else 0 if job["auth"] == "null" else 16


def reason(job):
    """The number of the first row of the argument table that refuses the job, else 0."""
    cipher, auth, length = job["cipher"], job["auth"], len(job["packet"])
    text, iv, key, tag = job["clen"], len(job["iv"]), len(job["akey"]), job["taglen"]
    ivs = {"cbc": [16], "ctr": [12, 16], "gcm": range(1, 65536), "gmac": range(1, 65536), "ccm": range(7, 14)}
    tags = range(4, 17, 2) if auth == "ccm" else [0] if auth == "null" else range(1, longest_tag(job) + 1)
    hashes = auth in HASHES or auth in CMACS or auth == "gmac"
    takes_iv = "gmac" if auth == "gmac" else cipher
    rows = [
        length > 65535,
        any((cipher == aead) != (auth == aead) for aead in AEADS) or auth == "gmac" and cipher != "null",
        cipher != "null" and len(job["key"]) not in KEY_SIZES,
        takes_iv != "null" and iv not in ivs[takes_iv],
        cipher != "null" and job["coff"] + text > length,
        cipher == "cbc" and (text == 0 or text % 16 != 0) or cipher == "ctr" and text == 0,
        auth in CMACS and key != CMACS[auth] or auth in HMACS and key > 1024 or auth == "gmac" and key not in KEY_SIZES
        or auth in HMACS_FROM_STATES and key != 2 * SIZES[HASHES[auth]][1],
        hashes and job["hoff"] + job["hlen"] > length,
        cipher in AEADS and len(job["aad"]) > {"gcm": 65535, "ccm": 65279}[cipher],
        tag not in tags,
    ]
    return rows.index(True) + 1 if True in rows else 0


def ciphered(job, packet):
    start, end = job["coff"], job["coff"] + job["clen"]
    text, encrypts = packet[start:end], job["dir"] == "enc"
    if job["cipher"] != "null":
        keys = schedule(job["key"])
        text = cbc(keys, job["iv"], text, encrypts) if job["cipher"] == "cbc" else ctr(keys, job["iv"], text)
    return packet[:start] + text + packet[end:]


def authenticated(job, packet):
    message = packet[job["hoff"]:job["hoff"] + job["hlen"]]
    if job["auth"] in HMACS:
        return hmac.new(job["akey"], message, HMACS[job["auth"]]).digest()
    if job["auth"] in HMACS_FROM_STATES:
        return hmac_from(HASHES[job["auth"]], job["akey"], message)
    if job["auth"] in DIGESTS:
        return hashlib.new(job["auth"], message).digest()
    if job["auth"] == "gmac":
        return gcm(schedule(job["akey"]), job["iv"], message, b"", 16, True)[1]
    return cmac(schedule(job["akey"]), message) if job["auth"] in CMACS else b""


def result_line(number, job):
    if reason(job):
        return "%d invalid-args %d\n" % (number, reason(job))
    packet = job["packet"]
    if job["cipher"] in AEADS:
        end, tag_len = job["coff"] + job["clen"], job["taglen"]
        seal = AEADS[job["cipher"]]
        text, tag = seal(schedule(job["key"]), job["iv"], job["aad"], packet[job["coff"]:end], tag_len, job["dir"] == "enc")
        packet = packet[:job["coff"]] + text + packet[end:]
    elif job["order"] == "ch":
        packet = ciphered(job, packet)
        tag = authenticated(job, packet)
    else:
        tag = authenticated(job, packet)
        packet = ciphered(job, packet)
    return "%d ok %s %s\n" % (number, packet.hex() or "-", tag[:job["taglen"]].hex() or "-")


def run_text(jobs):
    return "".join(result_line(number, job) for number, job in enumerate(jobs))


# The job file.

WORDS = {
    "cipher": ["null", "cbc", "ctr", *AEADS],
    "dir": ["enc", "dec"],
    "order": ["ch", "hc"],
    "auth": ["null", *HASHES, *CMACS, "gmac", *AEADS],
}


class BadLine(Exception):
    """The line, and the field."""


def number_of(field, limit=99999):
    good = field.isdigit() and field.isascii() and len(field) <= 5 and (field == b"0" or field[:1] != b"0")
    return int(field) if good and int(field) <= limit else None


def bytes_of(field):
    if field == b"-":
        return b""
    good = field and len(field) % 2 == 0 and all(b in b"0123456789abcdefABCDEF" for b in field)
    return bytes.fromhex(field.decode()) if good else None


def session_key(line, fields, sessions):
    """The key of a session line behind this many others."""
    if sessions == MAX_SESSIONS:
        raise BadLine(line, 1)
    if len(fields) != 2:
        raise BadLine(line, 0)
    key = bytes_of(fields[1])
    if key is None or len(key) not in KEY_SIZES:
        raise BadLine(line, 2)
    return key


def value_of(name, field, keys):
    if name == "key" and field.startswith(b"@"):
        number = number_of(field[1:], len(keys) - 1)
        return None if number is None else keys[number]
    if name in WORDS:
        return field.decode("latin-1") if field.decode("latin-1") in WORDS[name] else None
    if name in ("coff", "clen", "hoff", "hlen", "taglen"):
        return number_of(field, 255 if name == "taglen" else 99999)
    return bytes_of(field)


def job_of(line, fields, keys):
    if len(fields) != 14:
        raise BadLine(line, 0)
    values = [value_of(name, field, keys) for name, field in zip(FIELDS, fields)]
    if None in values:
        raise BadLine(line, values.index(None) + 1)
    return dict(zip(FIELDS, values))


def command_of(line, content, submitters, workers):
    fields = content.split(b" ")
    bounds = {b"post": [submitters], b"claim": [workers, submitters], b"flush": [workers], b"collect": [submitters]}.get(fields[0])
    if bounds is None:
        raise BadLine(line, 1)
    if len(fields) != 1 + len(bounds):
        raise BadLine(line, 0)
    numbers = [number_of(field) for field in fields[1:]]
    for place, (number, bound) in enumerate(zip(numbers, bounds)):
        if number is None or number >= bound:
            raise BadLine(line, 2 + place)
    return (fields[0].decode(), *numbers)


def read(text, parties=None):
    """The jobs of a file, and the commands of its script, if it may have one."""
    pieces = text.split(b"\n")
    pieces = pieces if pieces[-1] else pieces[:-1]
    keys, jobs, commands, in_script = [], [], [], False
    for line, content in enumerate(pieces, 1):
        content = content[:-1] if content.endswith(b"\r") else content
        if not content or content.startswith(b"#"):
            continue
        if in_script:
            commands.append(command_of(line, content, *parties))
        elif parties and content == b"%":
            in_script = True
        elif content.split(b" ")[0] == b"session":
            keys.append(session_key(line, content.split(b" "), len(keys)))
        else:
            jobs.append(job_of(line, content.split(b" "), keys))
    return jobs, commands
