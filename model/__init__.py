"""The reference model: a second, independent implementation of the rules in docs/RULES.md (document 01), in Python,
written from them alone. The commands explain and picture use it, and so do the tests: those of tests/vectors hold it
to the answers that document 01 states, and together with the others they hold the proved programs to it.

A module has the name of the crate with the same rules. Besides, header has the verdict on an image, requests has
trigger and confirm, board the simulator's input, and refusals what every rule refuses with."""
