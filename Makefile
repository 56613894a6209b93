.PHONY: run test

# Proves and builds bookindex, then indexes the sample book and prints its index. The toolchain builds a program by running
# it in its crate's folder, where no galley lies: that run says so, and what counts is that the program is there.
run:
	rm -f crates/bookindex/out/bookindex
	cd crates/bookindex && { rt run || test -x out/bookindex; }
	cd crates/bookindex/data && ../out/bookindex

# The gate: every proof, the must-fail edits, and the test programs held to what they must print.
test:
	bash .ci/run
