# make run       prove and build the program, and run it on examples/worked.txt (JOB=file for another)
# make gate      everything proved from nothing, then the second program; the last line is "N passed, 0 failed"
# make bench     prove and build the static library, and time planner and reader beside the second program
# make prove     prove what has changed since the last run
# make format    lay out every source file

JOB ?= examples/worked.txt

.PHONY: run gate bench prove format
run:
	@mkdir -p target && echo 'proving and building the program, some minutes the first time (target/run.log) ..'
	@cd crates/orthmuzi && rt run < stdin > ../../target/run.log 2>&1 || { tail -n 20 ../../target/run.log; exit 1; }
	crates/orthmuzi/out/orthmuzi < $(JOB)
gate:
	bash .ci/run
bench:
	bash bench/run
prove:
	rt all check
format:
	for crate in crates/*/; do (cd $$crate && rt fmt); done
