.PHONY: demo report adapter test fuzz bench resources

# converts a sample recording from storage format to IF1, to IF2 and back
demo:
	@tests/build demo
	@target/tools/demo

# the report on the stored recording on standard input
report:
	@tests/build report_program </dev/null
	@target/bin/report_program

# the command-line program, target/tools/adapter: see target/tools/adapter --help
adapter:
	@tests/build adapter

# everything: proofs, must-fail edits, the compiled libraries against the second program
test:
	@tests/run

# the comparison with the second program for so many seconds, with another seed each time
SECONDS = 60
fuzz:
	@tests/build compare
	@target/tools/compare --seconds $(SECONDS)

# how fast the library converts, orders bits, and joins and splits frames for the link, beside plain Rust: Markdown tables
bench:
	@tests/build bench bench_three
	@target/tools/bench
	@target/tools/bench_three

# the code size of each library and the deepest stack of each call: Markdown tables
resources:
	@tests/build stack stack_bound
	@benches/resources
