"""Refused memory, failing devices and hostile clients."""
