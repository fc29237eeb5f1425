"""The parts of `refused`, which tries wrong bodies."""
