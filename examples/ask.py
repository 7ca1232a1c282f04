import subprocess
import time

import request


def ask(key_file, *payloads):
    """The line of `macaroond pipe` for each request, in order, under the keys of a file."""
    text = open(key_file).read() + "\n" + "".join(payload.hex() + "\n" for payload in payloads)
    run = subprocess.run(["bin/macaroond", "pipe"], input=text, capture_output=True, text=True)
    if run.returncode != 0:
        raise RuntimeError(run.stderr.strip())
    return run.stdout.splitlines()


new = request.mint("v2-json", "bank", "http://mybank/", "we used our secret key")
print(*ask("examples/keys", new, request.verify("pier", "!", int(time.time()))), sep="\n")
