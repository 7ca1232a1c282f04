"""What a small request waits for beside clients that send the dearest ones without end, over frames and over HTTP.

Where the 99th percentile of its waits passes the limit they are timed anew, some times. Then a wait may be as much
longer as the machine held up a piece of work meanwhile that takes about as long and has no part in the daemon.
"""
import base64
import hashlib
import multiprocessing
import pathlib
import select
import sys
import time

sys.path.insert(0, str(pathlib.Path(__file__).resolve().parents[1]))
from common.daemon import awaited, connected, frame
from common.processes import CALM_PAUSE, CALM_TRIES

import client
import request

# How many clients send dear requests at a time, for how many seconds another is timed beside them, and
# how many seconds of its waits the 99th percentile may be, on a machine that does other work too; and
# over HTTP, where a loop answers what is dear, on one that does no other. And how many send them at the second
# socket, how many seconds such a request at the first one may wait, and after how many it is given up.
CROWDS, DEAR_SECONDS, DEAR_WAIT_MAX, HTTP_WAIT_MAX = (8, 60), 3, 0.5, 0.01
SIDE_CROWDS, SIDE_WAIT_MAX, SIDE_PATIENCE = (600,), 0.15, 30
# How many rounds of hashing a piece of work has that is timed between those waits.
WORK_ROUNDS = 12_000


def dearest_request(count=128):
    """A verify of a token in JSON with so many caveats; of nearly 32 KiB with as many as it may have."""
    caveats = ",".join('{"i":"' + "x" * 230 + '"}' for _ in range(count))
    token = '{"v":2,"i":"a","c":[' + caveats + '],"s64":"' + "A" * 43 + '"}'
    payload = request.verify("bank", token, 0)
    return frame(payload)


def over_http(token):
    """A verify of this token over HTTP."""
    return f"GET /verify/bank HTTP/1.1\r\nHost: a\r\nAuthorization: Bearer {token}\r\n\r\n".encode()


def dearest_token():
    """A token of nearly 32 KiB in JSON that is dear to read, from one who has none."""
    caveats = ",".join(['{"i":""}'] * 3_500)
    return '{"v":2,"i":"a","c":[' + caveats + '],"s64":"' + "A" * 43 + '"}'


def sends_dear(path, text, count, until):
    """So many connections on which this goes out without end, and what is answered is read."""
    texts = text * 8
    rest = {connected(path): memoryview(texts) for _ in range(count)}
    for one in rest:
        one.setblocking(False)
    while time.monotonic() < until:
        readable, writable, _ = select.select(rest, rest, [], 0.1)
        for one in readable:
            one.recv(65_536)
        for one in writable:
            rest[one] = rest[one][one.send(rest[one]) :] or memoryview(texts)


def seconds_of(call):
    """How many seconds a call took, and what it gave."""
    begin = time.monotonic()
    given = call()
    return time.monotonic() - begin, given


def work():
    """Some ten milliseconds of the processor, about as long as a small verify over HTTP may wait."""
    hashlib.pbkdf2_hmac("sha256", b"", b"", WORK_ROUNDS)


def waits_beside(answers, path, text, count):
    """The seconds that requests waited beside so many clients with this dear request, sorted, and those that a piece of
    work between them took."""
    until = time.monotonic() + DEAR_SECONDS
    crowd = multiprocessing.Process(target=sends_dear, args=(path, text, count, until), daemon=True)
    waits, works = [], []
    crowd.start()
    time.sleep(0.3)
    while time.monotonic() < until:
        wait, is_due = seconds_of(answers)
        if not is_due:
            raise SystemExit("a request had another reply than it is due")
        waits.append(wait)
        works.append(seconds_of(work)[0])
        time.sleep(0.001)
    crowd.join(timeout=30)
    return sorted(waits), sorted(works)


def late_of(waits):
    """The 99th percentile of waits that are sorted."""
    return waits[len(waits) * 99 // 100]


def told_of(waits):
    """How many waits there were, and how long: in the middle, at the 99th percentile, and the longest."""
    median, late, longest = (1000 * wait for wait in (waits[len(waits) // 2], late_of(waits), waits[-1]))
    return f"{len(waits)} times: p50 {median:.2f} ms, p99 {late:.1f} ms, the longest {longest:.0f} ms"


def calmest_beside(most, *asked):
    """The waits of the first try within this limit; else those of the try that comes nearest to its own, which is wider
    by what the machine held up the work between them, at the 99th percentile."""
    tries = []
    for _ in range(CALM_TRIES):
        waits, works = waits_beside(*asked)
        if late_of(waits) <= most:
            return waits, most
        tries.append((waits, most + late_of(works) - works[0]))
        time.sleep(CALM_PAUSE)
    return min(tries, key=lambda found: late_of(found[0]) / found[1])


def late_beside(what, most, *asked, crowds=CROWDS):
    """What is wrong with the waits of who asks this beside others with dear requests there, if anything."""
    for count in crowds:
        waits, limit = calmest_beside(most, *asked, count)
        told = f", where {1000 * limit:.0f} ms are the limit" if limit > most else ""
        print(f"hostile: {what} beside {count} clients with dear requests, {told_of(waits)}{told}")
        if late_of(waits) > limit:
            yield f"beside {count} clients with dear requests {what} waited {late_of(waits):.3f} s (p99)"


def beside_dear(path, http):
    """The same at both: in frames, and over HTTP."""
    with client.Client(path) as asked:
        token = asked.ask(request.mint("v2-binary", "bank", "", "a", "a = 1", "b = 2", "c = 3"))[1:]
        small = request.verify("bank", "hex:" + token.hex(), 0, "a = 1", "b = 2", "c = 3")
        frames = lambda: asked.ask(small) == b"\x00"
        yield from late_beside("a small verify in frames", DEAR_WAIT_MAX, frames, path, dearest_request())
        plain = asked.ask(request.mint("v2-binary", "bank", "", "a"))[1:]
    text = over_http(base64.urlsafe_b64encode(plain).rstrip(b"=").decode())
    awaited(pathlib.Path(http).exists)
    with connected(http) as stream:

        def grants():
            stream.sendall(text)
            return stream.recv(65_536).startswith(b"HTTP/1.1 200 ")

        dear = over_http(dearest_token())
        yield from late_beside("a small verify over HTTP", HTTP_WAIT_MAX, grants, http, dear)


def beside_side(path, side):
    """The same of dear requests at the first socket beside those at the second one, which are taken in turn."""
    dear = dearest_request()
    with client.Client(path, timeout=SIDE_PATIENCE) as asked:
        due = asked.ask(dear[4:])
        answers = lambda: asked.ask(dear[4:]) == due
        yield from late_beside("a dear verify at the other socket", SIDE_WAIT_MAX, answers, side, dear, crowds=SIDE_CROWDS)
