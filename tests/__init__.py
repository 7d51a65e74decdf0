"""The checks that `./test` runs, a module for each subject."""
