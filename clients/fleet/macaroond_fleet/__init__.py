"""Brings a key file and revocations to many daemons by etcd, and tells where they are up."""
