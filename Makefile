# run: prove and build the program and all it stands on, then run it on the sample image
# test: the whole gate
.PHONY: run test

# `rt run` builds the program and runs it where no image lies; the run that counts is the last line's.
run:
	cd crates/handover && rt check && rm -f out/handover out/handover.stamp
	cd crates/handover && { rt run >/dev/null 2>&1 || test -x out/handover; }
	cd crates/handover/data && ../out/handover

test:
	.ci/run
