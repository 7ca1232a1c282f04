"""A service whose path /account is for those who bring a token: service.py SOCKET PORT"""
import logging
import sys
from wsgiref.simple_server import make_server

from macaroond import Client
from macaroond.wsgi import RequireMacaroon, request_facts


def account(environ, start_response):
    start_response("200 OK", [("Content-Type", "text/plain")])
    return [b"the account of %b\n" % environ["macaroond.identifier"].encode()]


def service(environ, start_response):
    if environ["PATH_INFO"] == "/account":
        return guarded(environ, start_response)
    start_response("200 OK", [("Content-Type", "text/plain")])
    return [b"anybody may read this\n"]


# Why a request was refused is logged as information, which Python leaves out where nothing else is said.
logging.basicConfig(level=logging.INFO, format="%(asctime)s %(message)s")
guarded = RequireMacaroon(account, Client(sys.argv[1]), "bank", request_facts)
make_server("127.0.0.1", int(sys.argv[2]), service).serve_forever()
