#!/bin/sh
# Builds the Go daemon as bin/go_daemon. It stands on Debian's golang-go and golang-gopkg-macaroon.v2-dev.
set -eu
cd "$(dirname "$0")"
mkdir -p ../../bin
GO111MODULE=off GOFLAGS='' GOPATH=/usr/share/gocode go build -o ../../bin/go_daemon .
