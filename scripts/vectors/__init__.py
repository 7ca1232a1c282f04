"""The vectors: rows that any macaroon library can be held against."""
