# make test: everything that must hold before a change lands.
# make run FILE=...: the command line, built, on a file.
.PHONY: test run library
test:
	.ci/run

library:
	@mkdir -p target
	@(cd crates/exports && rt lib) > target/library.log 2>&1 || { tail -20 target/library.log; exit 1; }

run: library
	@cargo run --release --offline --quiet --manifest-path host/Cargo.toml -p yeshqoram -- normalize $(FILE)
