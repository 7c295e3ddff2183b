"""The parts of `tests/hostile`: faults that the built programs are put under."""
