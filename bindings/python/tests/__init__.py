"""Tests of the Python binding, on the shared object that ABR_SHARED names: python3 -m tests, in bindings/python."""
