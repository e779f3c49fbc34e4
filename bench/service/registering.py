"""What the scripts of this folder share that play telephones which register: users with passwords, credentials, REGISTERs, and a proxy that has a realm.
The telephones are at addresses other than the proxy's own, which it asks for no password."""
import hashlib
import os
import re
import socket
import struct
import subprocess

import common
from common import Proxy, lines

DOMAIN = REALM = "example.com"
# whoever is at the proxy's own address is trusted, and nobody else is
OUTSIDE = "127.0.0.2"
TRUST = "trust 127.0.0.128/25"


def hashed(algorithm, text):
    """The hash of a text by MD5 or SHA-256, in digits."""
    return hashlib.new("md5" if algorithm == "MD5" else "sha256", text.encode()).hexdigest()


def md5(text):
    return hashed("MD5", text)


def password_of(user):
    return f"pass-{user}"


def configuration(others=()):
    """A configuration with a realm and these further lines, in the order that the service wants: locations are the last."""
    locations = [line for line in others if line.startswith("location ")]
    rest = [line for line in others if not line.startswith("location ")]
    return "\n".join([f"own {common.PROXY[0]} {common.PROXY[1]}", "instance 1", f"domain {DOMAIN}", f"realm {REALM}", TRUST, *rest, *locations]) + "\n"


def users_file(users, name="users"):
    """Writes the file of these users, who are known by their passwords' MD5 hashes, and answers its path."""
    path = os.path.join(common.FOLDER, name)
    with open(path, "w") as file:
        file.writelines(f"{user} {md5(f'{user}:{REALM}:{password_of(user)}')} -\n" for user in users)
    return path


def has_store(program):
    """Whether a program can keep bindings in a file."""
    return "--store" in subprocess.run([program, "--help"], capture_output=True, text=True, check=False).stdout


def proxy_of(program, users, *words, others=(), **how):
    """A proxy with a realm, these users and these further lines."""
    return Proxy(program, "--users", users_file(users), *words, text=configuration(others), **how)


# ---- credentials

def nonce_in(text):
    """The nonce of a challenge with MD5."""
    for line in re.findall(r"^WWW-Authenticate: (.*?)\r$|^Proxy-Authenticate: (.*?)\r$", text, re.M):
        challenge = line[0] or line[1]
        if "SHA" not in challenge:
            return re.search(r'nonce="([^"]*)"', challenge)[1]
    raise RuntimeError("no challenge with MD5: " + text)


def credentials(user, password, nonce, method, uri, algorithm="MD5"):
    """The value of credentials, as RFC 7616 has them."""
    secret = hashed(algorithm, f"{user}:{REALM}:{password}")
    response = hashed(algorithm, f"{secret}:{nonce}:00000001:0a4f113b:auth:{hashed(algorithm, f'{method}:{uri}')}")
    return (f'Digest username="{user}", realm="{REALM}", nonce="{nonce}", uri="{uri}", response="{response}", algorithm={algorithm}, '
            f'cnonce="0a4f113b", qop=auth, nc=00000001')


# ---- requests

def register(user, sequence, contacts, branch, call=None, nonce=None, host=OUTSIDE, port=5070, more=(), password=None):
    """A REGISTER of a user with these Contact values, and with his credentials where there is a nonce."""
    uri = f"sip:{DOMAIN}"
    shown = [f"Authorization: {credentials(user, password or password_of(user), nonce, 'REGISTER', uri)}"] if nonce else []
    text = [f"REGISTER {uri} SIP/2.0", f"Via: SIP/2.0/UDP {host}:{port};branch=z9hG4bK-{branch}-{user}-{sequence};rport", "Max-Forwards: 70",
            f"From: <sip:{user}@{DOMAIN}>;tag=r{sequence}", f"To: <sip:{user}@{DOMAIN}>", f"Call-ID: {call or user}-registers", f"CSeq: {sequence} REGISTER",
            *(f"Contact: {contact}" for contact in contacts), *shown, *more, "Content-Length: 0", "", ""]
    return "\r\n".join(text).encode()


def written(requests, name):
    """Writes requests as registers.c reads them, and answers the path."""
    path = os.path.join(common.FOLDER, name)
    with open(path, "wb") as file:
        for request in requests:
            file.write(struct.pack("<I", len(request)) + request)
    return path


class Telephone:
    """A telephone at an address of its own."""

    def __init__(self, host=OUTSIDE, port=5070):
        self.way, self.host, self.port = common.opened(port, host), host, port
        self.way.settimeout(5)

    def ask(self, request):
        """The final answer to a request, which is sent again while none comes."""
        for _ in range(8):
            self.way.sendto(request, common.PROXY)
            self.way.settimeout(1)
            try:
                while True:
                    text = self.way.recv(65536).decode("latin-1")
                    if text.startswith("SIP/2.0 ") and not text.startswith("SIP/2.0 1") and lines(text, "CSeq") == lines(request.decode("latin-1"), "CSeq"):
                        return text
            except socket.timeout:
                continue
        raise RuntimeError("no answer to a request")

    def nonce(self, user):
        """A nonce for this telephone's address."""
        text = self.ask(register(user, 1, [], "nonce", call="asks", host=self.host, port=self.port))
        if not text.startswith("SIP/2.0 401 "):
            raise RuntimeError("a REGISTER without credentials is not challenged: " + text)
        return nonce_in(text)

    def registers(self, user, contacts, sequence=1, nonce=None, more=()):
        """The status of the answer to a REGISTER of this user."""
        nonce = nonce or self.nonce(user)
        text = self.ask(register(user, sequence, contacts, "t", nonce=nonce, host=self.host, port=self.port, more=more))
        return int(text[8:11])

    def close(self):
        self.way.close()


def bound(proxy):
    """The users to whom a contact is bound, as the proxy tells, and how many contacts there are in all."""
    told = [line.split(" ") for line in proxy.tell("bindings").splitlines() if line.startswith("user ")]
    return {words[1] for words in told}, len(told)
