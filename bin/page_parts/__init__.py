"""The parts of bin/page: texts that are read, rules, markup, the sections of the page, and the picture of the
eating."""
