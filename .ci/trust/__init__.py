"""The parts of `trusted`, which finds the definitions that what the docs cite rests on."""
