"""The parts of tools/simulate."""
