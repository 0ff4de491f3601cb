"""Tests of `rls share`, `join` and `sync`, by test_share.py."""
import os

TOP = os.path.dirname(os.path.dirname(os.path.abspath(__file__)))
os.environ.setdefault("RLS", os.path.join(TOP, "..", "..", "bin", "rls"))       # another program may have this name on the path
