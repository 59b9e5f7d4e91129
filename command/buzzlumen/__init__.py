"""The command `buzzlumen`: questions about a circuit's delay, answered by the proved library."""

__version__ = "2.1"
DATE = "2026-11-16"
