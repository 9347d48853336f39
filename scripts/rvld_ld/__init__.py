"""The parts of rvld-ld: words of the command, inputs, objects, equal objects, messages, and the run of rvld."""
