"""The cases of dev/hostile beside those that it has itself. Each module has a function `cases`,
which yields them in turn."""
