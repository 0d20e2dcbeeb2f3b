# make run     runs the main program on a log: make run LOG=examples/dropout.log
# make test    the gate: proves, tries the must-fail edits, runs the programs and the tests
# make clean   removes what was built

LOG ?= examples/worked.log
PROGRAM = dump
BUILT = crates/$(PROGRAM)/out/$(PROGRAM)

.PHONY: run test clean

run: $(BUILT)
	@$(BUILT) < $(LOG)

# A program is built only once its proof is checked; rt takes over what has not changed.
$(BUILT): crates.txt $(shell find crates -path '*/out' -prune -o \( -name '*.rt' -o -name '*.antt' \) -print)
	@mkdir -p target
	@echo "proving and building $(PROGRAM) (a few minutes the first time)"
	@cd crates/$(PROGRAM) && rt run < /dev/null > ../../target/$(PROGRAM).log 2>&1 || { cat ../../target/$(PROGRAM).log; exit 1; }
	@touch $@

test:
	@.ci/run

clean:
	rm -rf target crates/*/out
