# What a newcomer needs: `make demo` and `make test`. Both build what is missing.

.PHONY: demo test wallet bench planted model interface

SOURCES := crates.txt $(shell find crates -path '*/out' -prune -o -type f -print)

# The program, proved and built: bin/wallet.
wallet: bin/wallet

# `rt run` proves the program, builds it and runs it once, here on no requests and a journal that is thrown away.
bin/wallet: $(SOURCES)
	folder=$$(mktemp -d) && (cd crates/wallet && rt run -- apply "$$folder/journal" < /dev/null); status=$$?; rm -rf "$$folder"; exit $$status
	mkdir -p bin
	cp crates/wallet/out/wallet $@

# One journal, two runs on it, and what is refused.
demo: bin/wallet
	sh examples/demo.sh

# The gate: each proof, must-fail edit, test and program. Then what the gate cannot run: the program's exit statuses.
test:
	rt ci
	$(MAKE) bin/wallet
	sh checks/program.sh

# Not part of the gate: what requests on a journal on disk cost, beside a C program that makes the same calls, and what reading costs.
bench: bin/wallet
	python3 scripts/bench.py

# Not part of the gate: each of six wrong definitions is refused by a worked row.
planted:
	python3 scripts/planted.py

# Not part of the gate: the model of the whole wallet in Python, its tests, and 10,000 random tasks under the six laws.
model:
	python3 -B -m unittest discover -s scripts -p 'model*_test.py'
	python3 -B scripts/random_tasks.py

# Not part of the gate: the OpenAPI document, the pages beside it and the worked replies say the same.
interface:
	python3 scripts/interface.py
