# The two commands of a newcomer.
.PHONY: run test

# Proves and builds the program, and runs it on the list of proposals that is kept with it.
run:
	cd crates/quotation && rt run < stdin

# The gate.
test:
	.ci/run
