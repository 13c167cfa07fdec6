"""Allocations that fail in built programs: in the calls of the library for C, and in hirgrep with each of its options."""
