# The two commands of the README.
#   make demo   proves and builds `merge`, and runs it on two streams
#   make test   passes all tests; its last line is the gate's own, 'N passed, 0 failed'
.PHONY: demo test setup rust-test same vectors edits

demo:
	cd crates/merge && rt run <../../examples/five.messages
	tools/run crates/merge/out/merge <examples/bringup.messages

test: setup
	@tools/gate

# what the kit's machine has already; elsewhere Debian's packages
setup:
	@for tool in cargo python3; do command -v $$tool >/dev/null || { apt-get update && apt-get install -y $$tool; } || exit 1; done

# the second implementation: its own tests, and its program over the kept streams
rust-test:
	cd rust && cargo test --release --quiet
	cd rust && cargo build --release --quiet
	tools/streams rust/target/release/merge

# rt follows no link, so a program's input and output are copies: of the kept vectors, and of what bench/reads and bench/works time
same:
	cat vectors/example.script vectors/edges.script | cmp - crates/replay/stdin
	cat vectors/example.answers vectors/edges.answers | cmp - crates/replay/stdout
	cmp examples/five.messages crates/merge/stdin
	cmp vectors/merge-example.sheet crates/merge/stdout
	cmp bench/typical.message crates/readings/stdin
	rust/target/release/vectors bench typical 10 | cmp - crates/works/stdin
	rust/target/release/workbench <crates/works/stdin | cmp - crates/works/stdout

# the proved `replay` over the kept scripts and over those that are made of other seeds: make vectors SEEDS="2 3 4"
vectors:
	[ -x crates/replay/out/replay ] || (cd crates/replay && rt run </dev/null >/dev/null)
	cd rust && cargo build --release --quiet
	SEEDS="$(SEEDS)" tools/replays tools/run crates/replay/out/replay

# the must-fail edits that the gate doesn't try (tools/edits): of all crates, or of those that CRATES names
edits:
	tools/try-edits $(CRATES)
