.PHONY: run devices test

# proves and builds the program, and shows a formula text and the tape that it becomes
run:
	@cd crates/tapelist && rt run < ../../examples/net-weight.txt > /dev/null
	@cat examples/net-weight.txt
	@echo ----
	@crates/tapelist/out/tapelist < examples/net-weight.txt

# proves and builds the exercise of the devices, and shows what both kinds of each answer
devices:
	@cd crates/devices && rt run > /dev/null
	@crates/devices/out/devices

# the gate: everything proved, every must-fail edit refused, every program and test run
test:
	.ci/run
