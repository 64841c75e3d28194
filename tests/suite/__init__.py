"""The tests of the built program, a module for each subject; docs/TRUST.md ("Tested") lists them."""
