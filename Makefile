.PHONY: run test

# Proves and builds what the program needs, and runs it on the two example folders. The second is refused, as it must be.
run:
	@mkdir -p target/bin
	@echo "proving and building the program, about five minutes the first time ..."
	@cd crates/evening && rt run -- --help > ../../target/run.log 2>&1 || { cat ../../target/run.log; exit 1; }
	@cp crates/evening/out/evening target/bin/evening
	@target/bin/evening crates/evening/data/segments
	@! target/bin/evening crates/evening/data/circle

# The gate.
test:
	@bash .ci/run
