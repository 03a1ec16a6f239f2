# make run [MESSAGE=file]   prove what iewalk needs, then show how the message divides
# make test                 the whole gate
MESSAGE ?= examples/unknown_tlv_e.bin

.PHONY: run test

run:
	@echo "proving iewalk and what it stands on .."
	@log=$$(mktemp); cd crates/iewalk && rt run < stdin > $$log 2>&1 || { cat $$log; rm $$log; exit 1; }; rm $$log
	@crates/iewalk/out/iewalk < $(MESSAGE)

test:
	bash .ci/run
