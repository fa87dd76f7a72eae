# The cases of a log of dpdk-test that passed, each with the name of its suite.
/^ \+ Test Suite : / { suite = $0; sub(/^ \+ Test Suite : /, "", suite) }
/^ \+ TestCase \[ *[0-9]+\] : .* succeeded$/ { name = $0; sub(/^ \+ TestCase \[ *[0-9]+\] : /, "", name); sub(/ succeeded$/, "", name); print suite ": " name }
