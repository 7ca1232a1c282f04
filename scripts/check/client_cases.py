"""Requests of the Python client whose answers come from the code of others: libmacaroons and pymacaroons.

64 threads, and then 64 tasks, share one client, and every reply is compared.
"""
import asyncio
import base64
import ctypes
import random
import threading
import typing

from check import peers

from macaroond import AsyncClient, BadToken, Client, Form, UnknownKey

ASKERS = 64
LOCATION = "http://mybank/"
# The secrets of examples/keys.
SECRETS = {"bank": "this is our super secret key; only we should know it", "shop": "another long secret"}


class Asked(typing.NamedTuple):
    """A call, and what it has to come to."""

    name: str
    words: tuple
    due: object


class Libmacaroons(peers.Libmacaroons):
    """libmacaroons, for tokens of V1 text."""

    form = Form.V1_TEXT

    def written(self, secret, identifier, caveats):
        function = self.library
        token = function.macaroon_create(*self.sized(LOCATION), *self.sized(secret), *self.sized(identifier), self.error)
        for caveat in caveats:
            longer = function.macaroon_add_first_party_caveat(ctypes.c_void_p(token), *self.sized(caveat), self.error)
            function.macaroon_destroy(ctypes.c_void_p(token))
            token = longer
        size = function.macaroon_serialize_size_hint(ctypes.c_void_p(token))
        text = ctypes.create_string_buffer(size)
        function.macaroon_serialize(ctypes.c_void_p(token), text, ctypes.c_size_t(size), self.error)
        function.macaroon_destroy(ctypes.c_void_p(token))
        return text.value.decode().rstrip("=")

    def grants(self, secret, text, facts):
        function = self.library
        token, verifier = function.macaroon_deserialize(text.encode(), self.error), function.macaroon_verifier_create()
        for fact in facts:
            function.macaroon_verifier_satisfy_exact(ctypes.c_void_p(verifier), *self.sized(fact), self.error)
        parts = ctypes.c_void_p(verifier), ctypes.c_void_p(token)
        verdict = function.macaroon_verify(*parts, *self.sized(secret), None, ctypes.c_size_t(0), self.error)
        function.macaroon_verifier_destroy(parts[0])
        function.macaroon_destroy(parts[1])
        return verdict == 0


class Pymacaroons(peers.Pymacaroons):
    """pymacaroons, for tokens of V2 text."""

    form = Form.V2_TEXT

    def written(self, secret, identifier, caveats):
        version = self.library.MACAROON_V2
        token = self.library.Macaroon(location=LOCATION, identifier=identifier, key=secret, version=version)
        for caveat in caveats:
            token.add_first_party_caveat(caveat)
        return token.serialize()

    def grants(self, secret, text, facts):
        verifier = self.library.Verifier()
        for fact in facts:
            verifier.satisfy_exact(fact)
        try:
            return verifier.verify(self.library.Macaroon.deserialize(text), secret)
        except self.library.exceptions.MacaroonException:
            return False


def libraries():
    """Those that are there."""
    found = []
    for kind in (Libmacaroons, Pymacaroons):
        try:
            found.append(kind())
        except (OSError, ImportError):
            pass
    return found


def asked(rng, library):
    """A request of some kind, and what the library says to it."""
    key = rng.choice([*SECRETS])
    identifier = f"user {rng.randrange(10**9)}"
    caveats = [f"account = {rng.randrange(10**9)}" for _ in range(rng.randrange(4))]
    kind = rng.choice([minted, narrowed, granted, granted, lacking, forged, cut, unknown])
    return kind(rng, library, key, identifier, caveats)


def minted(rng, library, key, identifier, caveats):
    return Asked("mint", (key, identifier, LOCATION, caveats, library.form), library.written(SECRETS[key], identifier, caveats))


def narrowed(rng, library, key, identifier, caveats):
    token = library.written(SECRETS[key], identifier, caveats[:1])
    return Asked("attenuate", (token, *caveats[1:]), library.written(SECRETS[key], identifier, caveats))


def verified(library, key, token, facts, code, caveat=None, identifier=None):
    """A verify, whose verdict the library has to share."""
    if library.grants(SECRETS[key], token, facts) != (code == 0):
        raise SystemExit(f"{library.name} says otherwise than was thought of {token}")
    return Asked("verify", (key, token, facts), (code, caveat, identifier))


def granted(rng, library, key, identifier, caveats):
    facts = rng.sample(caveats, len(caveats)) + ["method = GET"]
    return verified(library, key, library.written(SECRETS[key], identifier, caveats), facts, 0, None, identifier)


def lacking(rng, library, key, identifier, caveats):
    """One fact isn't there."""
    caveats = [*caveats, "method = GET"]
    place = rng.randrange(len(caveats))
    facts = caveats[:place] + caveats[place + 1 :]
    return verified(library, key, library.written(SECRETS[key], identifier, caveats), facts, 24, place)


def forged(rng, library, key, identifier, caveats):
    """The token was made under another key."""
    other = next(name for name in SECRETS if name != key)
    return verified(library, key, library.written(SECRETS[other], identifier, caveats), caveats, 23)


def cut(rng, library, key, identifier, caveats):
    """A part of a token is none, which each library says in a way of its own."""
    token = library.written(SECRETS[key], identifier, caveats)
    content = base64.urlsafe_b64decode(token + "=" * (-len(token) % 4))[: -rng.randrange(1, 30)]
    return Asked("attenuate", (base64.urlsafe_b64encode(content), "a"), BadToken)


def unknown(rng, library, key, identifier, caveats):
    return Asked("verify", ("pier", library.written(SECRETS[key], identifier, caveats), caveats), UnknownKey)


def came_to(made):
    """What a call came to, in the words of `Asked.due`."""
    return made if isinstance(made, str) else (made.code, made.caveat, made.identifier)


def by_threads(path, cases):
    """What each call comes to, from threads that share a client."""
    came = [None] * len(cases)

    def work(first):
        for number in range(first, len(cases), ASKERS):
            try:
                came[number] = came_to(getattr(client, cases[number].name)(*cases[number].words))
            except Exception as error:
                came[number] = type(error)

    with Client(path, timeout=60) as client:
        threads = [threading.Thread(target=work, args=(first,)) for first in range(ASKERS)]
        for thread in threads:
            thread.start()
        for thread in threads:
            thread.join()
    return came


def by_tasks(path, cases):
    """What each call comes to, from tasks that share a client."""
    came = [None] * len(cases)

    async def work(client, first):
        for number in range(first, len(cases), ASKERS):
            try:
                came[number] = came_to(await getattr(client, cases[number].name)(*cases[number].words))
            except Exception as error:
                came[number] = type(error)

    async def all_of():
        async with AsyncClient(path, timeout=60) as client:
            await asyncio.gather(*(work(client, first) for first in range(ASKERS)))

    asyncio.run(all_of())
    return came


def faults(path, count, found):
    """What came otherwise than these libraries say, of so many requests, and how many replies were compared."""
    rng = random.Random(count)
    cases = [asked(rng, found[number % len(found)]) for number in range(count)]
    wrong = []
    for name, ask in (("threads", by_threads), ("tasks", by_tasks)):
        pairs = zip(cases, ask(path, cases))
        wrong += [f"by {name}: {case.name} {case.words} came to {came}, not {case.due}" for case, came in pairs if came != case.due]
    return wrong[:10], 2 * count
