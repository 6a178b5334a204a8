# make        proves and builds every crate and the library for C, walks document 01's step list, and shows two seats on the
#             evening of the decimal comma
# make run    walks a step list of yours: make run LIST=FILE
# make test   the gate: proves every crate, tries the wrong programs, and holds library and program against
#             the second ones; its last line is the verdict on the crates
.PHONY: all run test

LIST = outside/lists/document.list

all:
	rt all check
	outside/library.sh
	outside/program.sh
	@echo
	@outside/lists/run.sh outside/lists/document.list
	@echo
	@outside/examples/run.sh

run:
	@test -x target/bin/steplist || outside/program.sh
	@outside/lists/run.sh "$(LIST)"

test:
	@outside/test.sh
