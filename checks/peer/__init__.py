"""A server, a gateway and a witness that were written from docs/WIRE.md and docs/FORMATS.md: plain programs, to be
tried with those of `nfsacc`, and servers that lie."""
