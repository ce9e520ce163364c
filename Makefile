# What one runs here, by name. README.md and CONTRIBUTING.md say what each needs and how long it takes.
.PHONY: try test gate bindings bench

try:
	./replay.sh

test:
	cd bindings/rust && cargo test

gate:
	.ci/run

bindings:
	bindings/build.sh

bench:
	cd bindings/bench && cargo run --release -- run --memory 20M --flash 0,200M --sizes 300 --keys 300000 --requests 300000
