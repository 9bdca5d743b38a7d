"""Bindings of emitted programs, made of their certificates: typed hosts, and C libraries."""
