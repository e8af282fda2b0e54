"""What runs the built program: its cases in other surroundings, made-up mines, files cut and mutated; and the tests of pitplan over it."""
